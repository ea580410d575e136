# Moments rounded to minutes: neighbours share the rounded moment, check judges the rounded plan, and a no is said.
printf 'msp 1\nclass P3|pmtn|Cmax\njob a p=100\njob b p=100\njob c p=100\njob d p=100\nend\n' > thirds.txt
msp solve < thirds.txt > thirds.report
plan thirds.report --instance thirds.txt --time-unit 1min --start '2026-03-02 06:00' --csv
plan thirds.report --instance thirds.txt --time-unit 1min --start '2026-03-02 06:00' --csv --round 1min; echo "status $?"
# Where no work is lost, the rounded plan is feasible, and its cost is that of check.
printf 'schedule\ncost 5\nunit 4\npiece a 1 1 1 9\npiece b 1 1 9 13\npiece c 1 1 14 18\n%s\n' end > quarters.txt
printf 'msp 1\nclass 1||sumwC\njob a p=2 w=3\njob b p=1 w=1\njob c p=1 w=2\nend\n' > list.txt
plan quarters.txt --instance list.txt --time-unit 1h --round 1h; echo "status $?"
{ cat list.txt; printf 'schedule\ncost 0\nunit 1\npiece a 1 1 0 2\npiece b 1 1 2 3\npiece c 1 1 4 5\nend\n'; } | msp check | grep '^feasible\|^cost'
plan quarters.txt --time-unit 1h --round 1h; echo "status $?"
plan quarters.txt --instance list.txt --round 1h; echo "status $?"
plan quarters.txt --instance list.txt --time-unit 1h --round 1; echo "status $?"
