# Dates and lengths of time as German and English spreadsheets write them.
printf 'job;p;d\nSäge;3:30;02.03.2026 14:00\nTür;0:45;3.3.2026\n' | from-csv '1||Lmax' --time-unit 1h --start '02.03.2026 06:00' --scale 4 2> comment
printf 'job,p,d\nsaw,3:30,25/03/2026 2:00 PM\n' | from-csv '1||Lmax' --time-unit 30min --start 2026-03-25 | grep '^job'
printf 'job,p,d\nsaw,1,03/02/2026\n' | from-csv '1||Lmax' --time-unit 1h --start 2026-02-01
printf 'job,p,d\nsaw,1,03/02/2026\n' | from-csv '1||Lmax' --time-unit 1h --start 2026-02-01 --dates dmy | grep '^job'
