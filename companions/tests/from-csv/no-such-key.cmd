from-csv '1||Lmax' --column dued=Termin < joinery.csv
