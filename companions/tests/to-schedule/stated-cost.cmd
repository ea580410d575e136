to-schedule orders.txt --cost 5 < plan.csv > schedule
cat orders.txt schedule | msp check; echo "status $?"
