from-csv '1||sumC' < /dev/null
