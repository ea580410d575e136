from-csv '1|prec|Lmax' --scale 2 < orders.csv
