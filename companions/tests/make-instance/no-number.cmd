make-instance '1||sumU' 5 1 --due tight
