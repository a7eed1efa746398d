# The chart of a walk: what stands before its tables, and what is drawn of the first of them.
set terminal svg size 1200,400 font 'Helvetica,13' background rgb 'white'
set datafile separator '\t'
set border 3+8 lc rgb '#8a949b'
set grid ytics lc rgb '#e3e8ea' lt 1
set tics out nomirror
set key above right samplen 2
set xlabel 'place in the log'
set ylabel 'score' tc rgb '#1d6f86'
set y2label 'lamp' tc rgb '#b07a1e'
set y2tics
plot $steps using 1:2 with fillsteps fs solid noborder fc rgb '#e4f0f3' notitle, \
     $steps using 1:2 with steps lc rgb '#1d6f86' lw 2 title 'score', \
     $steps using 1:3 axes x1y2 with lines lc rgb '#b07a1e' lw 1.2 title 'lamp'
