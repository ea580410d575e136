# What from-csv did to the units stands in the file of names; a word that contradicts it is refused, and without the file plan says what it takes.
printf 'job;p;d\nSäge;1,5;4\nTür;2;3\n' > list.csv
from-csv '1||Lmax' --scale 2 --time-unit 30min --start '2026-03-02 08:00' --names list.names < list.csv > list.txt
head -n 5 list.names
msp solve < list.txt > list.report
plan list.report --instance list.txt --names list.names --csv
plan list.report --instance list.txt --names list.names --csv --time-unit 1h; echo "status $?"
plan list.report --instance list.txt --names list.names --csv --scale 2 --time-unit 30min | cksum
plan list.report --csv | head -n 2
plan list.report --csv --scale 2 | head -n 2
plan list.report --csv --scale 2 --start '2026-03-02 08:00' | head -n 2
