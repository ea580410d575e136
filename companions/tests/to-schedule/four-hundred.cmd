make-instance '1|prec|Lmax' 400 3 --due 0.5 > jobs.txt
msp solve < jobs.txt > report
plan --instance jobs.txt --csv --time-unit 15min --start '2026-03-02 08:00' < report > plan.csv
to-schedule jobs.txt --time-unit 15min --start '2026-03-02 08:00' < plan.csv > schedule
cat jobs.txt schedule | msp check | tail -n 3
