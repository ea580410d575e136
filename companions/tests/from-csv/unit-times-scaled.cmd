from-csv 'P|r,p=1|Lmax' --machines 2 --scale 2 < bakery.csv
