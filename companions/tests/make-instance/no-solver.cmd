make-instance '1||sumT' 5 1 --nonzero
