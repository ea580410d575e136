# The words of a shop in a file; what is typed goes before, and what cannot be kept is refused with its line.
cat > shop.words <<'TEXT'
# the laundry
column job=Auftrag
column time=Dauer
column due: Termin
shifts Mo-Fr 06:00-14:00
start: 2026-03-02 06:00
strict
TEXT
sed -i 's/^column due: /column due=/' shop.words
printf 'Auftrag;Dauer [min];Termin\na;90;03.03.26 12 Uhr\n' > list.csv
from-csv '1||Lmax' --words shop.words < list.csv
from-csv '1||Lmax' --words=shop.words --start '2026-03-03 06:00' list.csv | grep '^job'
printf 'Auftrag;Dauer [min];Termin;Kunde\na;90;03.03.26 12 Uhr;b\n' | from-csv '1||Lmax' --words shop.words; echo "status $?"
printf 'colum job=Auftrag\n' > wrong.words
from-csv '1||Lmax' --words wrong.words < list.csv; echo "status $?"
from-csv '1||Lmax' --words missing.words < list.csv; echo "status $?"
