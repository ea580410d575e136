# A folder of sheets, one for each student, in one call.
mkdir sheets
cp sheet.txt sheets/anna.txt
cp sheet.txt sheets/clara.txt
mkdir some
cp students/anna.txt students/clara.txt students/dora.txt some
grade sheets some; echo "status $?"
