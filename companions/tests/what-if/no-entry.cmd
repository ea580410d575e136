what-if small.csv
