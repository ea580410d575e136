grade sheet.txt students
