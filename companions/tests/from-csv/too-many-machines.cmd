from-csv '1||sumC' --machines 2 < bakery.csv
