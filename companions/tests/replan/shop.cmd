# A job shop: routes without what is done.
propose shop.txt > shop.plan
sed -n '/^piece/p' shop.plan
replan shop.txt shop.plan --now 5 --left shelf:1=2 > later.txt
cat later.txt
msp check < later.txt | grep -E '^(feasible|cost|agree)'
replan shop.txt shop.plan --now 5 --failed 3; echo "status $?"
