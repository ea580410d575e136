from-csv '1||Lmax' --column due=r < bakery.csv
