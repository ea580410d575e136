to-schedule orders.txt --time-unit 1h --start '2027-01-01' < dates.csv
