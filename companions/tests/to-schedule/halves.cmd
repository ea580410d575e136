to-schedule orders.txt --scale 2 --names names.csv --column start=Anfang --column end=Ende --column job=Auftrag \
    --column machine=Maschine < halves.csv > schedule
cat schedule
cat orders.txt schedule | msp check | tail -n 5
