cite --results clash.csv '1||sumC'
