# Moments of a plan are read by the file of names; a word that contradicts it is refused.
printf 'msp 1\nclass 1||Cmax\njob a p=4\nend\n' > one.txt
printf 'name,original\n#scale,2\n#cost,2\n#time-unit,30min\n#start,2026-03-02 08:00\na,Säge\n' > one.names
printf 'job;machine;start;end\nSäge;1;2026-03-02 08:00;2026-03-02 09:00\n' > one.csv
to-schedule one.txt --names one.names < one.csv
to-schedule one.txt --names one.names --time-unit 1h < one.csv; echo "status $?"
to-schedule one.txt --names one.names --start '2026-03-02 09:00' < one.csv; echo "status $?"
