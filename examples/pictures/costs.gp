# Called by costs.sh: the costs, the picture, and what they are
set terminal pngcairo noenhanced rounded size 1500,600 font "Sans,12"
set output ARG2
set grid
set key off
set yrange [0 : *]
set xlabel "where the order begins, km"
set ylabel ARG3
set datafile missing "none"
plot ARG1 using 1:2 with steps lw 2 lc rgb "blue", \
     ARG1 using 1:(strcol(2) eq "none" ? 0 : NaN) with points pt 2 ps 2 lw 3 lc rgb "red"
