# Sheets as make-instance --sheets names them: the path of a hand-in names its sheet, and sheet-1 is not sheet-12.
make-instance '1||sumC' 3 1 --sheets 12 --to sheets > answers.csv
mkdir -p all/ada
msp solve < sheets/sheet-12.txt > all/ada/sheet-12.txt
msp solve < sheets/sheet-1.txt > all/bob_sheet-1_final.txt
msp solve < sheets/sheet-2.txt > all/cleo.txt
grade sheets all; echo "status $?"
