from-csv 'Q|pmtn|Cmax' --machines 4 --speeds 100,125,110,180 < loads.csv > speeds.txt
cat speeds.txt
msp solve < speeds.txt | grep '^cost'
