# What the program does not read is not printed: a text that is cut, a time of 0, a loop of arcs; nor what is no file.
printf 'msp 1\nclass 1||sumC\njob a p=4 d=3\n' > cut.txt
print-sheet cut.txt; echo "status $?"
printf 'msp 1\nclass 1||sumC\njob a p=0\nend\n' > zero.txt
print-sheet zero.txt --solution; echo "status $?"
printf 'msp 1\nclass P2|intree,p=1|Cmax\njob a\njob b\narc a b\narc b a\nend\n' > loop.txt
print-sheet loop.txt --solution; echo "status $?"
print-sheet nothing.txt
