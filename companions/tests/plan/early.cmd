# Each piece as early as its machine, its job and what comes before it allow; the cost is that of check.
printf 'msp 1\nclass P|pmtn,r|Cmax\nmachines 3\njob a p=1 r=100\njob b p=20 r=0\njob c p=15 r=0\njob d p=15 r=0\nend\n' > late.txt
printf 'schedule\ncost 101\nunit 1\npiece b 1 1 81 100\npiece d 1 2 81 85\npiece c 1 2 85 100\npiece d 1 3 90 101\npiece a 1 1 100 101\npiece b 1 2 100 101\nend\n' > late.report
plan late.report --instance late.txt --csv
plan late.report --instance late.txt --early
plan late.report --instance late.txt --early --csv 2> note > moved.csv
{ cat late.txt; to-schedule late.txt < moved.csv 2> note; } | msp check | grep '^feasible\|^cost'
# Release dates, routes and the order between jobs are kept: b waits for a, c for its release date, the second operation for the first.
printf 'msp 1\nclass P2|prec,r|sumC\njob a p=3 r=1\njob b p=2 r=0\njob c p=1 r=9\narc a b\nend\n' > order.txt
printf 'schedule\ncost 0\nunit 1\npiece a 1 1 5 8\npiece b 1 2 9 11\npiece c 1 1 20 21\nend\n' | plan --instance order.txt --early --csv
printf 'msp 1\nclass J2||Cmax\njob a\nroute 1 2 2 3\njob b\nroute 2 4 1 1\nend\n' > shop.txt
printf 'schedule\ncost 0\nunit 2\npiece a 1 1 3 7\npiece a 2 2 30 36\npiece b 1 2 20 28\npiece b 2 1 40 42\nend\n' | plan --instance shop.txt --early
# Without the instance, or of a schedule that is not feasible, nothing is moved.
plan late.report --early; echo "status $?"
printf 'schedule\ncost 0\nunit 1\npiece a 1 1 0 3\npiece b 1 2 2 4\npiece c 1 1 20 21\nend\n' | plan --instance order.txt --early; echo "status $?"
