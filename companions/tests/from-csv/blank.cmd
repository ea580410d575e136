from-csv 'F3||Cmax' --scale 2 < shop.csv
