# What the program refuses is refused: a fault, a class that check does not judge, words.
printf 'msp 1\nclass 1||Lmax\njob a p=0 d=1\nend\n' | propose; echo "status $?"
printf 'msp 1\nclass R2|pmtn|Lmax\njob a d=1\ntimes 1 2\nend\n' | propose; echo "status $?"
propose nothing.txt; echo "status $?"
propose arrivals.txt --tries 0; echo "status $?"
propose cut.txt --by minizinc; echo "status $?"
printf 'schedule\ncost 0\nunit 1\npiece nobody 1 1 0 3\nend\n' > nobody.txt
propose arrivals.txt --from nobody.txt; echo "status $?"
propose --jssp arrivals.txt; echo "status $?"
