# Draws the file that bench --data writes: above, nanoseconds a call; below, how many times as fast
# ours is as the original and as Eigen. Called with the variables data and picture, and eigen, which is 1
# where the file has figures of it and otherwise 0.
set terminal svg size 1600,900 font 'sans,12'
set output picture
set datafile separator '\t'
set datafile missing '?'
set style data histograms
set style histogram clustered gap 1
set style fill solid 0.8 border -1
set boxwidth 0.9
set xtics rotate by -45 nomirror
set rmargin 10
set grid ytics
set logscale y
set key outside top center horizontal
# What is drawn of Eigen, above and below.
above = !eigen ? "" : \
  ", '' using 7 every ::1 linetype 4 title 'Eigen, fixed'" . \
  ", '' using 8 every ::1 linetype 5 title 'Eigen, run time'"
below = !eigen ? "" : \
  ", '' using 9 every ::1 linetype 4 title 'against Eigen, fixed'" . \
  ", '' using 10 every ::1 linetype 5 title 'against Eigen, run time'"
set multiplot layout 2,1
set ylabel 'ns a call'
plot data using 2:xtic(1) every ::1 linetype 1 title 'ours', \
     '' using 3 every ::1 linetype 2 title 'original, arrays', \
     '' using 4 every ::1 linetype 3 title 'original, slices' @above
set ylabel 'times as fast'
set arrow 1 from graph 0, first 1 to graph 1, first 1 nohead linewidth 2
plot data using 5:xtic(1) every ::1 linetype 2 title 'against arrays', \
     '' using 6 every ::1 linetype 3 title 'against slices' @below
unset multiplot
