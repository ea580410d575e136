# By shifts and holidays dates become working time: a date in a pause counts as the next working moment or the end of the last one, which
# are the same working time; a holiday takes away the night shift that begins on it.
cat > list.csv <<'TEXT'
job,p,r,d
at the start,1:00,2026-03-02 06:00,2026-03-02 14:00
before the start,1,2026-02-28 12:00,2026-02-27 20:00
in the break,1,2026-03-02 14:10,2026-03-02 14:30
at night,1,2026-03-02 23:00,2026-03-03 05:00
on the weekend,1,2026-03-07 18:00,2026-03-08
on a holiday,1,2026-04-03 08:00,2026-04-06 20:00
as a number,1,2.5,16
TEXT
printf '\357\273\277# Easter\r\n2026-04-03 # Friday\r\n\r\n2026-04-05..2026-04-06\r\n' > days.txt
from-csv '1|pmtn,r|Lmax' --scale 2 --time-unit 1h --start '2026-03-02 06:00' --shifts 'Mon-Fri 06:00-14:00, 14:30-22:00;Sat 06:00-12:00' \
    --holidays days.txt --names days.names < list.csv
cat days.names
printf 'job,p,d\nbefore,1,2026-12-24 05:00\nafter,1,2026-12-26 23:30\nSunday,1,2026-12-27 22:30\n' > list.csv
echo 2026-12-24..2026-12-25 > days.txt
from-csv '1||Lmax' --scale 2 --time-unit 1h --start '2026-12-23 22:00' --shifts 'Mon-Sun 22:00-06:00' --holidays days.txt < list.csv
# A day of the clock is no day of the plant: it is told what is counted.
printf 'job,p,d\nsaw,2,3\n' | from-csv '1||Lmax' --time-unit 8h --date-unit 1d --start '2026-03-02 06:00' --shifts 'Mon-Fri 06:00-14:00' 2>&1
