# A plan with semicolons begins with a mark, and comes back as a spreadsheet saves it.
printf 'msp 1\nclass 1||Lmax\njob a p=3 d=4\nend\n' > one.txt
printf 'name,original\n#scale,2\n#cost,2\n#time-unit,1h\n#start,2026-03-02 08:00\na,Säge\n' > one.names
printf 'schedule\ncost -1\nunit 1\npiece a 1 1 0 3\nend\n' | plan --instance one.txt --names one.names --semicolons > one.csv
head -c 3 one.csv | od -An -tx1
sed 's/2026-03-02/02.03.2026/g; s/$/\r/' one.csv | to-schedule one.txt --names one.names
