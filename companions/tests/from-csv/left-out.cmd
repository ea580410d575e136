from-csv '1||Lmax' < bakery.csv
