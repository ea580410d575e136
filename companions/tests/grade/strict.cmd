grade sheet.txt students --strict
