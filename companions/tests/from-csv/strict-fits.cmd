cut -d, -f1-5 < bakery.csv | head -n 3 | from-csv '1|pmtn,r|sumwT' --strict
