# One machine and the greatest lateness: branching finds a best schedule, which no rule and no bound does here; with arcs too.
propose furnace.txt
propose furnace.txt --candidates | head -n 1
sed 's/1|r|/1|prec,r|/; s/^end/arc e f\nend/' furnace.txt | propose | sed '/^schedule/,$d'
