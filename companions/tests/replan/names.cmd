# With the file of names of a list: the moment is a date, jobs are called as in the list, and so it is told. What is left counts from now on, by
# a file of names of its own.
cat > list.csv <<'TEXT'
order;hours;due
posters Müller;6,5;2026-03-02 16:00
flyers;2;2026-03-02 12:00
catalogue pages;7;2026-03-03 18:00
catalogue cover;3;2026-03-03 10:00
invitations;1,5;2026-03-02 11:00
TEXT
from-csv 'P2||Lmax' --column job=order --column time=hours --column due=due --scale 2 --time-unit 1h --start '2026-03-02 08:00' \
    --names list.names < list.csv > list.txt
propose list.txt > list.plan
plan list.plan --instance list.txt --names list.names --csv
replan list.txt list.plan --names list.names --new-names new.names --now '2026-03-02 10:00' --left 'posters Müller=5' --gone 'catalogue cover' > new.txt
cat new.names
plan new.txt --names new.names --csv
msp check < new.txt | grep -E '^(feasible|cost|agree)'
replan list.txt list.plan --names list.names --now '2026-03-02 10:10'; echo "status $?"
replan list.txt list.plan --now 4 --new-names new.names; echo "status $?"
