# A workbook with numbers and dates as such, which comes back by to-schedule; what has to be rounded is told.
printf 'job;p;d\nSäge;1,5;2026-03-02 12:00\nTür;2;2026-03-02 09:00\n' | from-csv '1||Lmax' --scale 2 --time-unit 1h --start '2026-03-02 06:00' --names list.names > list.txt 2> notes
msp solve < list.txt > report
/usr/bin/python3 "$(command -v plan)" report --instance list.txt --names list.names --xlsx plan.xlsx; echo "status $?"
/usr/bin/python3 - <<'PYTHON'
from openpyxl import load_workbook
for sheet in load_workbook("plan.xlsx"):
    for row in sheet.iter_rows():
        print(sheet.title, *(f"{it.value!r} {it.number_format}" if it.is_date else repr(it.value) for it in row), sep=" | ")
PYTHON
/usr/bin/python3 "$(command -v to-schedule)" list.txt plan.xlsx --names list.names --check
msp solve < examples/shared-jobs.txt > shared.report
/usr/bin/python3 "$(command -v plan)" shared.report --instance examples/shared-jobs.txt --xlsx shared.xlsx --scale 7
/usr/bin/python3 "$(command -v plan)" shared.report --xlsx none/shared.xlsx; echo "status $?"
