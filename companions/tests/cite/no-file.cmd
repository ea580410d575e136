cite --results nothing.csv '1||sumC'
