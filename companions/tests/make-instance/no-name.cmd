make-instance 'F2||Smax' 3 7
