# Machines that are alike: what runs stays where it is; a machine fails, and what it ran begins again.
propose lathes.txt > lathes.plan
sed -n '/^piece/p' lathes.plan
replan lathes.txt lathes.plan --now 4 | tee four.txt | sed -n '/^schedule/,$p'
msp check < four.txt | grep -E '^(feasible|cost|agree)'
replan lathes.txt lathes.plan --now 4 --failed 2 --done bolts | sed -n '1,/^end/p'
