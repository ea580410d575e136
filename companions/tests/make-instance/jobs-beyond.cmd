make-instance '1||sumU' 401 7
