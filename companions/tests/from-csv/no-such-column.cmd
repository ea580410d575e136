from-csv '1||Lmax' --column due=Termin < joinery.csv
