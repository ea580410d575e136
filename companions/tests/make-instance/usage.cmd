make-instance '1||sumU'
