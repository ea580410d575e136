# A plan of a class that has no solver, which check finds feasible at its cost.
propose lathes.txt > plan.txt
cat plan.txt
cat lathes.txt plan.txt | sed '/^start/,/^open$\|^argued$\|^proved$/d' | msp check | grep -E '^(feasible|cost|agree)'
# The same words give the same bytes; plan reads it.
propose lathes.txt | cmp - plan.txt && plan plan.txt --instance lathes.txt
