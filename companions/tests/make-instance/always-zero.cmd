make-instance '1||sumU' 1 1 --due 3 --nonzero
