# Drawn as early as the order allows, with the cost of check; without the instance it is refused.
printf 'msp 1\nclass 1|r|Cmax\njob a p=4 r=9\njob b p=2 r=0\njob c p=3 r=1\nend\n' > late.txt
printf 'schedule\ncost 20\nunit 1\npiece b 1 1 2 4\npiece c 1 1 6 9\npiece a 1 1 16 20\nend\n' > late.report
gantt late.report --instance late.txt --text
gantt late.report --instance late.txt --early --text
gantt late.report --early --text; echo "status $?"
