# From standard input; faults have the path in front.
make-instance 'P|pmtn|Cmax' 3 1 --times 1:5 --machines 2 | print-sheet - | head -n 3
echo nothing | print-sheet -
