mkdir sheets
print-sheet sheets; echo "status $?"
print-sheet sheets --to printed; echo "status $?"
print-sheet examples/late-jobs.txt --to printed
