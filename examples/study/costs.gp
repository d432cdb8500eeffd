# gnuplot -c examples/study/costs.gp COSTS PICTURE: what each order costs by where it lies, a part for each line,
# train and plan. COSTS is made by summary.py.
stats ARG1 using 1 nooutput
set terminal pngcairo noenhanced rounded size 1500, 60 + 300 * STATS_blocks font "Sans,12"
set output ARG2
set multiplot layout STATS_blocks, 1
set lmargin 9
set rmargin 3
set grid
set xrange [0 : *]
set yrange [0 : *]
set xlabel "where the order begins, km"
set ylabel "cost at the end of the line, s"
set key above
do for [part = 0 : STATS_blocks - 1] {
    plot ARG1 index part using 1:2 with impulses lw 3 lc rgb "blue" title columnheader(1), \
         ARG1 index part using 1:(strcol(2) eq "stalled" ? 0 : NaN) with points pt 2 ps 2 lw 3 lc rgb "red" notitle
}
unset multiplot
