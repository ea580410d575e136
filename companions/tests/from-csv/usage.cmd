from-csv --machines 2 < bakery.csv
