# McNaughton's wrap: the bound is the work per machine, or else the longest job; a job is cut where a machine is full.
printf 'msp 1\nclass P3|pmtn|Cmax\njob a p=3\njob b p=3\njob c p=3\njob d p=1\nend\n' > work.txt
print-sheet work.txt --solution | sed -n '/wrap/,$p'
printf 'msp 1\nclass P2|pmtn|Cmax\njob a p=1\njob b p=9\njob c p=2\nend\n' > long.txt
print-sheet long.txt --solution | sed -n '/longest job takes/,$p'
