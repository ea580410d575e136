from-csv '1|pmtn,r|Lmax' --time-unit 15min --start 2026-03-03 --column job=Auftrag --column time=Stunden --column due=Liefertermin \
    --column release=Eingang --scale 4 < joinery.csv
