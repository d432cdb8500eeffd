# Called by times.sh: the folder of the texts, the picture
trains = ARG1 . "/trains"
stats trains using 1 nooutput
set terminal pngcairo noenhanced rounded size 1500,850 font "Sans,12"
set output ARG2
set grid
set key bottom right
set xlabel "km"
set ylabel "time of the day"
set ytics time format "%H:%M"
set xtics nomirror
set link x2
set x2tics rotate left ()
load ARG1 . "/points.gp"
# Along a line the train moves; where it stands its line is a step. Both ends of the bracket are drawn, thin and
# black, on the line.
plot for [train = 0 : STATS_blocks - 1] trains index train using 1:3 with lines lw 4 lc train + 1 title columnheader(1), \
     for [train = 0 : STATS_blocks - 1] trains index train using 1:2 with lines lw 0.5 lc rgb "black" notitle, \
     for [train = 0 : STATS_blocks - 1] trains index train using 1:3 with lines lw 0.5 lc rgb "black" notitle
