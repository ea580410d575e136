# Cost and bound in the units of the list, beside the report in those of the instance.
printf 'order;hours;due\nshafts;3,5;4\nbolts;1,5;2,5\nrings;3;6\nhubs;2,5;4,5\ncams;2;2,5\n' > list.csv
from-csv 'P2||Lmax' --column job=order --column time=hours --column due=due --scale 2 --time-unit 1h --start '2026-03-02 06:00' --date-unit 1h \
    --names list.names < list.csv > list.txt
propose list.txt --names list.names | sed '/^schedule/,$d'
propose lathes.txt --names list.names
