from-csv '1||Lmin' < bakery.csv
from-csv 'X||Cmax' < bakery.csv
from-csv '1|rj;pmtn|SumwC' < bakery.csv
from-csv '1' < bakery.csv
