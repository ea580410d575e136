# With --semicolons dates are German ones, pauses too, and come back by to-schedule.
printf 'job;p;d\na;3;02.03.2026 12:00\nb;7,5;03.03.2026 12:00\n' | from-csv '1||Lmax' --scale 2 --time-unit 1h --start '2026-03-02 06:00' --shifts 'Mo-Fr 06:00-14:00' --names list.names > list.txt 2> notes
msp solve < list.txt > report
plan report --instance list.txt --names list.names --semicolons 2> notes > plan.csv
cat plan.csv
plan report --instance list.txt --names list.names --semicolons --jobs 2> notes
to-schedule list.txt plan.csv --names list.names --check
