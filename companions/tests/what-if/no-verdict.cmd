what-if small.csv '1||sumU' maybe
