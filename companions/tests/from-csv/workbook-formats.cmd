# Colours in the format of a number make no date of it, and minutes with seconds are a length; empty sheets are named.
/usr/bin/python3 - <<'PYTHON'
from openpyxl import Workbook
book = Workbook()
sheet = book.active
rows = [("job", "p", "d", "w"), ("a", (2.5, '0.0;[Red]-0.0'), (46083.5, '[$-407]dd/mm/yy hh:mm;@'), (3, '#,##0.00\\ "d";[Red]\\-#,##0.00')),
        ("b", (30 / 1440, '[mm]:ss'), (46083.75, '[$-407]dd/mm/yy hh:mm;@'), (3, '#,##0.00\\ "d";[Red]\\-#,##0.00')),
        ("c", (90 / 86400, 'mm:ss'), (46084, '[$-407]dd/mm/yy hh:mm;@'), (2, '0.0;[Red]-0.0')),
        ("e", (30.5 / 24, 'hh:mm'), (46084, '[$-407]ddd dd.mm.yyyy'), (2, '0'))]
for at, row in enumerate(rows, 1):
    for column, it in enumerate(row, 1):
        sheet.cell(at, column).value = it if isinstance(it, str) else it[0]
        if not isinstance(it, str):
            sheet.cell(at, column).number_format = it[1]
book.create_sheet("empty")
book.save("list.xlsx")
PYTHON
/usr/bin/python3 "$(command -v from-csv)" '1||sumwU' --time-unit 1h --start '2026-03-02' --scale 40 < list.xlsx
