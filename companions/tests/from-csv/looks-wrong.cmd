# A row of sums, a day counted by a spreadsheet, a start a year away: told.
printf 'job;p;d\nSäge;3;46083\nSumme;3;2026-03-04\n' | from-csv '1||Lmax' --time-unit 1h --start '2025-01-01' | grep '^job'
printf 'job;p;d\nSäge;3;9\nSumme:;3;9\n' | from-csv '1||Lmax' --strict; echo "status $?"
# The year before, and a due date that is a day: told.
printf 'job;p;d\na;3;2026-03-04 12:00\nb;3;5.3.2026\nc;3;2026-03-06\n' | from-csv '1||Lmax' --time-unit 1h --start '2025-03-10 06:00' | grep -c '^job'
