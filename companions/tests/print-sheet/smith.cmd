# Smith's ratios, exact; for the plain sum all weights are 1.
printf 'msp 1\nclass 1||sumwC\njob a p=4 w=3\njob b p=2 w=4\njob c p=1 w=1\nend\n' > weights.txt
print-sheet weights.txt --solution | sed -n "/Smith/,\$p"
printf 'msp 1\nclass 1||sumC\njob a p=4\njob b p=2\njob c p=1\nend\n' > plain.txt
print-sheet plain.txt --solution | sed -n '/Shortest/,$p'
