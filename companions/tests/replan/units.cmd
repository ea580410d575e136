# What has begun does not take the time that all share, and the class becomes another.
msp solve < units.txt > units.plan
sed -n '/^piece/p' units.plan
replan units.txt units.plan --now 5 | head -n 8
