from-csv '1|prec,r|Lmax' --time-unit 1h --date-unit 1d --start '2026-03-02 08:00' --scale 4 --column job=Auftrag \
    --column time=Stunden --column due=Liefertermin --column release=Eingang --column after=nach --names names.csv < joinery.csv
cat names.csv
