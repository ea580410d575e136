from-csv 'F3||Cmax' --scale 2 --blank-is-0 < shop.csv
