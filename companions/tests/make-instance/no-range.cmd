make-instance '1||sumC' 5 1 --times 9:1
