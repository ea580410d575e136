to-schedule orders.txt < plan.csv > schedule
cat schedule
cat orders.txt schedule | msp check
