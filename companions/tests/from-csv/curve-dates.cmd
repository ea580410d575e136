# Thresholds of curves may be dates, with blanks in them too; one before the start counts as it.
cat > curves.csv <<'TEXT'
job;p;curve
a;1;2 0 02.03.2026 18 Uhr 5
b;2;1 -3 2026-03-03 06:00 4 Mi 04. März 2026 7
c;2;1 0 5 4 01.03.2026 1
TEXT
from-csv '1||fmax' --start '2026-03-02 06:00' --time-unit 1h < curves.csv
