from-csv 'P|r,p=p|sumwC' --machines 2 --time 1.5 --scale 2 < bakery.csv
