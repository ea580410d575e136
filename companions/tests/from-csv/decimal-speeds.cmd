from-csv 'Q|pmtn|Cmax' --machines 3 --speeds 1,0.8,1.5 < loads.csv
from-csv 'Q|pmtn|Cmax' --machines 3 --speeds '1;0,8;1,5' < loads.csv | cksum
from-csv 'Q|pmtn|Cmax' --machines 3 --speeds '1 0,8 1,5' < loads.csv | cksum
