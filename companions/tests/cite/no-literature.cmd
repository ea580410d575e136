cite --results mine.csv --literature mine.csv '1||sumC'
