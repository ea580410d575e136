from-csv '1||sumC' --encoding cp9999 < bakery.csv
