make-instance 'F2||Cmax' 3 7
