from-csv 'R2||sumC' < bakery.csv
