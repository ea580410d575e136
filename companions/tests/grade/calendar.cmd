# The file of names may have a calendar: costs are working time.
mkdir handed-in
printf 'name,original\n#scale,2\n#cost,2\n#time-unit,1h\n#start,2026-03-02 06:00\n#shifts,Mon-Fri 06:00-14:00\n' > list.names
printf 'msp 1\nclass 1||Lmax\njob a p=3 d=4\njob b p=4 d=2\nend\n' > list.txt
printf 'schedule\ncost 5\nunit 1\npiece a 1 1 0 3\npiece b 1 1 3 7\nend\n' > handed-in/ada.txt
grade list.txt handed-in --names list.names
