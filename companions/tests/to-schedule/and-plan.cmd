msp solve < examples/shared-jobs.txt > report
sed -n '/^schedule$/,$p' report > schedule
plan --instance examples/shared-jobs.txt --csv < report > list
to-schedule examples/shared-jobs.txt < list | cmp - schedule
plan --instance examples/shared-jobs.txt --semicolons --time-unit 20s --start '2026-02-28 23:59' < report > list
to-schedule examples/shared-jobs.txt --time-unit 20s --start '2026-02-28 23:59' < list | cmp - schedule
