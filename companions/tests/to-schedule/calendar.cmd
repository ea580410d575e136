# A plan by a calendar turns back into the same schedule, exactly, with parts of a second too; a piece in a pause is refused.
{
    printf 'name,original\n#scale,7\n#cost,7\n#time-unit,1h\n#start,2026-03-02 06:00:00+1/3\n'
    printf '#shifts,"Mon-Fri 06:00-14:00,22:00-06:00"\n#holidays,2026-03-03..2026-03-05 2026-12-24\n'
} > list.names
printf 'msp 1\nclass P|pmtn|Cmax\nmachines 3\njob a p=301\njob b p=200\njob c p=500\njob d p=611\nend\n' > list.txt
msp solve < list.txt > list.report
plan list.report --names list.names --csv 2> note > plan.csv
head -n 3 plan.csv
to-schedule list.txt --names list.names < plan.csv > schedule.txt
sed -n '/^unit /,$p' list.report | grep '^piece' | sort > one
grep '^piece' schedule.txt | sort > other
cmp one other && echo same
{ cat list.txt schedule.txt; } | msp check | grep '^feasible\|^cost'
printf 'job,machine,start,end\na,1,2026-03-07 06:00,2026-03-08 12:00\n' | to-schedule list.txt --names list.names; echo "status $?"
printf 'job,machine,start,end\na,1,2026-03-01 06:00,2026-03-02 12:00\n' | to-schedule list.txt --names list.names; echo "status $?"
printf 'job,machine,start,end\na,1,2026-03-02 06:00,2026-03-02 12:00\n' | to-schedule list.txt --names list.names --shifts 'Mon 06:00-14:00'; echo "status $?"
