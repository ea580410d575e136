# All faults are told at once, each with its line and the name of its column; alike ones once with their lines.
python3 - > list.csv <<'PYTHON'
print("Auftrag;Dauer [min];Liefertermin")
for at in range(2, 12):
    print(f"a{at};{'' if at in (3, 7) else at};{'' if at in (4, 5, 6, 9) else f'Woche {at}' if at > 6 else 5}")
PYTHON
from-csv '1||Lmax' --column job=Auftrag --column time=Dauer --column due=Liefertermin < list.csv; echo "status $?"
