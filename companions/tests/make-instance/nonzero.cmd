make-instance '1||sumU' 5 1 --nonzero | msp solve | grep '^cost'
