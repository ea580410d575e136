from-csv 'Q|pmtn|Cmax' --machines 3 --speeds 1,2 < loads.csv
