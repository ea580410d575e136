from-csv '1||Lmax' --strict < bakery.csv
