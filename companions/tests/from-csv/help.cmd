from-csv --help | head -n 3
