# A file of names that was written with another list is refused: its units would be wrong. Some jobs more, or less, are no other list.
printf 'job;p;d\nposters;1,5;4\nflyers;2;3\n' > list.csv
from-csv '1||Lmax' --scale 2 --names list.names < list.csv > list.txt
sed 's/posters/cards/' list.csv | from-csv '1||Lmax' --scale 4 --names other.names > other.txt
msp solve < list.txt > list.report
plan list.report --instance list.txt --names other.names; echo "status $?"
plan list.report --names other.names; echo "status $?"
gantt list.report --instance list.txt --names other.names; echo "status $?"
plan list.report --csv --names list.names | to-schedule list.txt --names other.names; echo "status $?"
mkdir folder && cp list.report folder/ada && grade list.txt folder --names other.names; echo "status $?"
grep -v flyers list.names > fewer.names && plan list.report --instance list.txt --names fewer.names | tail -n 1
