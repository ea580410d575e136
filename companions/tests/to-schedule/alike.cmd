# All faults of a plan are told at once, alike ones once with their lines; the instance may be named, and the plan be a file.
printf 'msp 1\nclass 1||Lmax\njob a p=8 d=9\njob b p=8 d=20\nend\n' > list.txt
printf 'Auftrag;machine;start;end\na;1;0;8\nb;Säge;8;\nc;1;8;16\nb;2;x;16\nb;;y;16\n' > plan.csv
to-schedule list.txt plan.csv --column job=Auftrag; echo "status $?"
head -n 2 plan.csv > one.csv
to-schedule --instance list.txt one.csv --column job=Auftrag 2> notes | grep '^piece'
to-schedule list.txt one.csv --column job=Auftrag 2> notes | grep '^piece'
