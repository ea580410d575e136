# Lengths and moments of a workbook are read to the second, and days from 1904 on where it says so.
/usr/bin/python3 - <<'PYTHON'
from openpyxl import Workbook
from openpyxl.utils.datetime import CALENDAR_MAC_1904, CALENDAR_WINDOWS_1900
for name, epoch, zero in (("1900", CALENDAR_WINDOWS_1900, 0), ("1904", CALENDAR_MAC_1904, 1462)):
    book = Workbook()
    book.epoch = epoch
    sheet = book.active
    sheet.append(["job", "p", "d"])
    sheet.append(["a", 30 / 86400, 46083.5 + 30 / 86400 - zero])
    sheet["B2"].number_format, sheet["C2"].number_format = "[h]:mm:ss", "yyyy-mm-dd hh:mm:ss"
    book.save(f"{name}.xlsx")
PYTHON
for book in 1900 1904; do
    /usr/bin/python3 "$(command -v from-csv)" '1||Lmax' --time-unit 1h --start '2026-03-02 06:00' --scale 120 < $book.xlsx 2>&1 | grep -E 'job|start'
done
