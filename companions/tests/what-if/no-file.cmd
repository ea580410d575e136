what-if nothing.csv '1||sumU' easy
