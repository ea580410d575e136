what-if narrow.csv '1||sumU' easy
