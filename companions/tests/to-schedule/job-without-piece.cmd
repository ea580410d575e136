head -n 3 plan.csv | to-schedule orders.txt
