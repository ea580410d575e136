to-schedule orders.txt --time-unit 15min --start '2026-12-31 23:00' < dates.csv
