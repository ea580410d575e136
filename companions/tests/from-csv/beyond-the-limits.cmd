printf 'job,p\na,5000000\n' | from-csv '1||sumC' --scale 1000
