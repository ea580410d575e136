to-schedule shop.txt < shop.csv > schedule
cat schedule
cat shop.txt schedule | msp check | tail -n 5
