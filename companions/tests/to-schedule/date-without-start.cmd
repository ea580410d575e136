to-schedule orders.txt < dates.csv
