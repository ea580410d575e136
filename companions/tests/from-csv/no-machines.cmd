from-csv 'P||sumC' < bakery.csv
