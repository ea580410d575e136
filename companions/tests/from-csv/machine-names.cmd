# Machines with names: from the list's columns or the words, to the plan and back.
printf 'job;Säge;Presse\nTür;1;2\nTor;2;1\n' | from-csv 'F2||Cmax' --column p1=Säge --column p2=Presse --names shop.names > shop.txt
cat shop.names
msp solve < shop.txt > shop.report
plan shop.report --instance shop.txt --names shop.names --csv | tee shop.csv
to-schedule shop.txt --names shop.names --check < shop.csv
gantt shop.report --instance shop.txt --names shop.names --text
