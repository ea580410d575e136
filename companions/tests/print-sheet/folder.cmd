# A folder of sheets: each sheet and its solution, in one call.
make-instance '1||sumU' 5 1 --times 1:9 --due 0.6 --against usual --sheets 3 --to sheets
print-sheet sheets --to printed --solution --title 'Late jobs'
ls printed
head -n 1 printed/sheet-2.md printed/sheet-2-solution.md
print-sheet sheets --to latex --latex
ls latex
