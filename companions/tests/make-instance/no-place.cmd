make-instance '1||sumC' 5 1 --weights 1:9
