# Clock times by the calendar of the file of names: begins are the next working moment, ends the end of the last one, and pauses are named.
shifts='Mon-Fri 06:00-14:00,14:30-22:00; Sat 06:00-12:00'
echo 2026-03-04 > days.txt
printf 'job,p,d\ncut,8,2026-03-02 14:10\nfold,8,2026-03-02 22:00\nbind,24,2026-03-07\ncover,1/3,2026-03-08\n' > list.csv
from-csv '1||Lmax' --scale 6 --time-unit 1h --start '2026-03-02 06:00' --shifts "$shifts" --holidays days.txt --names list.names < list.csv > list.txt
msp solve < list.txt > list.report
plan list.report --instance list.txt --names list.names
plan list.report --names list.names --csv
plan list.report --instance list.txt --names list.names --semicolons --jobs 2> note
plan list.report --names list.names --csv --shifts "$shifts" --holidays days.txt 2> note | cksum
plan list.report --names list.names --csv --shifts 'Mon-Fri 06:00-14:00'; echo "status $?"
echo 2026-03-06 >> days.txt
plan list.report --names list.names --csv --holidays days.txt; echo "status $?"
plan list.report --csv --scale 3 --start '2026-03-02 06:00' --shifts 'Mon-Fri 08:00-12:00' > clock.csv; head -n 2 clock.csv
plan list.report --csv --scale 3 --shifts 'Mon-Fri 08:00-12:00'; echo "status $?"
grep -v '^#shifts\|^#holidays' list.names > clock.names
plan list.report --csv --names clock.names --shifts 'Mon-Fri 08:00-12:00'; echo "status $?"
