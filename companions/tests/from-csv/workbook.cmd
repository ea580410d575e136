# A workbook: texts, numbers, dates and lengths of time as its cells hold them, a title above; the first sheet, or the one that is named.
/usr/bin/python3 - <<'PYTHON'
from datetime import datetime, time, timedelta
from openpyxl import Workbook
book = Workbook()
sheet = book.active
sheet.title = "Woche 10"
sheet.append(["Wochenplan"])
sheet.append([])
sheet.append(["Auftrag", "Dauer [h]", "Termin"])
sheet.append(["Säge", 1.5, datetime(2026, 3, 2, 14, 0)])
sheet.append(["Tür", timedelta(hours=27, minutes=30), datetime(2026, 3, 3)])
sheet.append(["Hut", time(3, 30), time(12, 0)])
sheet["B5"].number_format = "[h]:mm"
other = book.create_sheet("Woche 11")
other.append(["Auftrag", "Dauer [h]", "Termin"])
other.append(["Rad", 2, "09.03.26 12 Uhr"])
book.save("weeks.xlsx")
PYTHON
set -- --column job=Auftrag --column time=Dauer --column due=Termin --start 2026-03-02 --scale 2
/usr/bin/python3 "$(command -v from-csv)" '1||Lmax' "$@" < weeks.xlsx
/usr/bin/python3 "$(command -v from-csv)" '1||Lmax' "$@" weeks.xlsx --sheet 'Woche 11' | grep '^job'
/usr/bin/python3 "$(command -v from-csv)" '1||Lmax' "$@" weeks.xlsx --sheet 'Woche 12'; echo "status $?"
/usr/bin/python3 - <<'PYTHON'
from openpyxl import load_workbook
book = load_workbook("weeks.xlsx")
book["Woche 10"]["B4"] = "lang"
book["Woche 10"]["C5"] = None
book.save("wrong.xlsx")
PYTHON
/usr/bin/python3 "$(command -v from-csv)" '1||Lmax' "$@" wrong.xlsx --sheet 'Woche 10'; echo "status $?"
