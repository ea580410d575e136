from-csv '1|pmtn,prec,r|fmax' --scale 2 < curves.csv
