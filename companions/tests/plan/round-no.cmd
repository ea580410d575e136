# A rounded plan that is not feasible has one cost, that of its rounded ends: a ends at 06:15, 10 minutes behind its due date, before at 06:10.
printf 'msp 1\nclass 1||sumT\njob a p=10 d=5\njob b p=10 d=20\nend\nschedule\ncost 5\nunit 1\npiece a 1 1 0 10\npiece b 1 1 10 20\nend\n' > ten.txt
plan ten.txt --time-unit 1min --start '2026-03-02 06:00' | tail -n 4
plan ten.txt --time-unit 1min --start '2026-03-02 06:00' --round 15min | tail -n 4
plan ten.txt --time-unit 1min --start '2026-03-02 06:00' --round 15min --json | grep '"cost"'
