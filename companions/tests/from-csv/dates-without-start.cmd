from-csv '1||Lmax' --column job=Auftrag --column time=Stunden --column due=Liefertermin < joinery.csv
