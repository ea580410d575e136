from-csv 'R||sumC' --machines 3 --scale 2 --blank-is-0 < shop.csv
