# A class without a rule by hand has a sheet, and no solution.
printf 'msp 1\nclass 1||sumwU\njob a p=4 d=3 w=2\nend\n' > weighed.txt
print-sheet weighed.txt
print-sheet weighed.txt --solution
