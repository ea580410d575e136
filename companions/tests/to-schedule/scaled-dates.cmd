to-schedule orders.txt --scale 2 --time-unit 30min --start '2026-12-31 23:00' < dates.csv | cmp - dates.schedule
