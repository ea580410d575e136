# Workbooks that cannot be read are refused, with how to save them.
/usr/bin/python3 - <<'PYTHON'
import zipfile
from openpyxl import Workbook
book = Workbook()
book.active.append(["job", "p"])
book.active.append(["a", 1])
book.save("good.xlsx")
data = open("good.xlsx", "rb").read()
open("cut.xlsx", "wb").write(data[:len(data) // 2])
with zipfile.ZipFile("good.xlsx") as source, zipfile.ZipFile("word.xlsx", "w") as target:
    for name in source.namelist():
        target.writestr(name, source.read(name).replace(b"<sheetData>", b"<sheetData"))
with zipfile.ZipFile("none.xlsx", "w") as target:
    target.writestr("readme.txt", "nothing")
with zipfile.ZipFile("good.xlsx") as source, zipfile.ZipFile("far.xlsx", "w") as target:
    for name in source.namelist():
        target.writestr(name, source.read(name).replace(b'r="B2"', b'r="ZZZZZZ2"'))
PYTHON
for name in good cut word none far; do
    /usr/bin/python3 "$(command -v from-csv)" '1||sumC' < $name.xlsx 2>&1 | tail -n 1
done
