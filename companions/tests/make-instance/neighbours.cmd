# Neighbours in the list of students get sheets of their own, though many draws have cost 0.
make-instance '1||sumU' 4 1 --times 1:9 --due 1.5 --nonzero --sheets 12 --to sheets
cksum sheets/*.txt | cut -d' ' -f1 | sort | uniq -d
make-instance '1||sumU' 1 1 --times 1:2 --due 0 --sheets 8 --to alike > /dev/null; echo "status $?"
