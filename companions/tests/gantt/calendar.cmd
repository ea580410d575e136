# By a calendar the axis has working time: clock times, dotted lines and gaps where the plant pauses, and what that means below.
{
    printf 'name,original\n#scale,1\n#cost,1\n#time-unit,1h\n#start,2026-03-02 06:00\n'
    printf '#shifts,"Mon-Fri 06:00-14:00,14:30-22:00; Sat 06:00-12:00"\n#holidays,2026-03-04\n'
} > list.names
printf 'msp 1\nclass 1||Lmax\njob cut p=8 d=16\njob fold p=8 d=9\njob bind p=30 d=62\njob cover p=20 d=90\nend\n' > list.txt
{ cat list.txt; msp solve < list.txt | sed -n '/^schedule$/,$p'; } > planned.txt
gantt planned.txt --names list.names --text
gantt planned.txt --names list.names > plan.svg
grep -o '<title>pause[^<]*\|<title>bind[^<]*\|>20[0-9: -]*</text>\|>[^<]*of work[^<]*<\|>working time[^<]*\|>Jobs pause[^<]*\|>dotted[^<]*' plan.svg
grep -c 'stroke="#fff"' plan.svg
gantt planned.txt --names list.names --by-job > plan.svg
grep -c 'stroke="#fff"\|<title>pause' plan.svg
sed -i 's/^#time-unit,1h/#time-unit,1d/' list.names
gantt planned.txt --names list.names --width 700 | grep -o '<title>pause[^<]*\|>dotted[^<]*'
gantt planned.txt --names list.names --shifts 'Mon-Fri 06:00-14:00'; echo "status $?"
