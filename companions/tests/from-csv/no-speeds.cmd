from-csv 'Q|pmtn|Cmax' --machines 3 < loads.csv
