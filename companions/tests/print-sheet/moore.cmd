# Moore and Hodgson: what each step drops; the sheet alone has no solution in it.
print-sheet examples/late-jobs.txt --title 'Week 3'
print-sheet examples/late-jobs.txt --title 'Week 3' --solution
