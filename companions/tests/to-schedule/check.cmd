# What check says in the words of the plan.
printf 'msp 1\nclass 1||Lmax\njob Sage p=3 d=4\njob b p=2 d=6\nend\n' > two.txt
printf 'name,original\n#scale,2\n#cost,2\nSage,Säge\n' > two.names
printf 'job;machine;start;end\nSäge;1;0;1,5\nb;1;1,5;2,5\n' | to-schedule two.txt --names two.names --check; echo "status $?"
printf 'job;machine;start;end\nSäge;1;0;1,5\nb;1;1;2\n' | to-schedule two.txt --names two.names --check; echo "status $?"
printf 'job;machine;start;end\nSäge;1;0;1\nb;1;1;2\n' | to-schedule two.txt --names two.names --check; echo "status $?"
