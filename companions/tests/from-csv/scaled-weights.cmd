from-csv 'J2|n<=2|sumwC' --scale 2 --scale-weights 2 < routes.csv
