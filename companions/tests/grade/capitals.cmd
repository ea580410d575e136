# Jobs with other capitals are the jobs of the sheet, and arrows may stand between those of an order; both are told.
mkdir all
make-instance '1||sumC' 3 1 > three.txt
msp solve < three.txt | sed 's/piece j/piece J/' > all/ada
printf 'J1 -> j2 → J3\n' > all/bob
printf 'J1, j2, J4\n' > all/cleo
grade three.txt all; echo "status $?"
