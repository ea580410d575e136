from-csv '1||Lmax' --scale 2 < orders.csv
