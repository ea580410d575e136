# On one machine what runs ends first; a job is gone, one has come, one takes longer.
propose press.txt > press.plan
sed -n '/^piece/p' press.plan
printf 'msp 1\nclass 1|r|sumwT\njob labels p=2 r=0 d=22 w=9\nend\n' > rush.txt
replan press.txt press.plan --now 10 --left posters=9 --gone cards --rush rush.txt > today.txt
cat today.txt
msp check < today.txt | grep -E '^(feasible|cost|agree)'
