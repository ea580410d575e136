# Shortest remaining time and earliest due date: what runs from each release date and end on, and what is cut.
print-sheet examples/interrupted-sum.txt --solution
printf 'msp 1\nclass 1|pmtn,r|Lmax\njob a p=4 r=2 d=9\njob b p=2 r=3 d=5\njob c p=1 r=9 d=9\nend\n' > dates.txt
print-sheet dates.txt --solution | sed -n '/^| from/,$p'
