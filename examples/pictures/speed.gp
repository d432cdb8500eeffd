# Called by speed.sh: the folder of the texts, the picture, the line's length in km, the train's top speed in km/h
length = ARG3 + 0
top = ARG4 + 0
text(name) = ARG1 . "/" . name
set terminal pngcairo noenhanced rounded size 1500,850 font "Sans,12"
set output ARG2
set multiplot
set lmargin 9
set rmargin 3
set grid
set style fill solid
set xrange [-0.01*length : 1.01*length]

# above: speed
set origin 0, 0.27
set size 1, 0.73
set bmargin 0.5
set format x ""
set ylabel "speed in km/h"
set yrange [0 : 1.6*top]
set ytics 20
set key above
plot text("points") using ($1/1000):(1.15*top) with impulses lc rgb "gray60" notitle, \
     text("points") using ($1/1000):(1.17*top):2 with labels rotate left notitle, \
     text("caps") using ($1/1000):(sqrt($2)/100) with steps lw 5 lc rgb "gray75" title "limits (caps)", \
     text("brakes") using ($1/1000):(sqrt($2)/100) with lines lw 2 lc rgb "orange" title "braking list (brakes)", \
     text("envelope") using ($1/1000):(sqrt($2)/100) with lines lw 2 lc rgb "blue" title "fastest run (envelope)", \
     text("stall") using ($1/1000):($2*top) with impulses lw 2 lc rgb "red" notitle

# below: gradient
set origin 0, 0
set size 1, 0.27
set bmargin 3.5
set tmargin 0.5
set format x "%g"
set xlabel "km"
set ylabel "per mille"
set yrange [-20 : 20]
set ytics 10
set key off
plot text("gradients") using ($1/1000):2 with fillsteps lc rgb "gray60"
