# With --check a moment outside of the shifts is refused, each one at its line and column; without it it counts as the work done by then.
printf 'name,original\n#scale,1\n#cost,1\n#time-unit,1h\n#start,2026-03-02 06:00\n#shifts,"Mon-Fri 06:00-14:00,14:30-22:00"\n#holidays,2026-03-04\n' > list.names
printf 'msp 1\nclass 1||Lmax\njob a p=8 d=9\njob b p=8 d=20\nend\n' > list.txt
cat > plan.csv <<'TEXT'
job;machine;start;end
a;1;2026-03-02 06:00;2026-03-02 14:10
b;1;2026-03-02 14:20;2026-03-02 23:00
TEXT
to-schedule list.txt --names list.names --check < plan.csv; echo "status $?"
to-schedule list.txt --names list.names < plan.csv | grep '^piece'
# Begins and ends of shifts are within them; a holiday is not.
sed 's/14:10/14:00/; s/14:20/14:30/; s/23:00/22:00/' plan.csv | to-schedule list.txt --names list.names --check; echo "status $?"
sed 's/14:10/14:30/; s/14:20/14:00/; s/23:00/22:00/' plan.csv | to-schedule list.txt --names list.names --check; echo "status $?"
sed 's/14:10/14:00/; s/14:20/14:30/; s/2026-03-02 23:00/2026-03-04 08:00/' plan.csv | to-schedule list.txt --names list.names --check; echo "status $?"
