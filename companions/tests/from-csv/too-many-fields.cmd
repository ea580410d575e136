printf 'job,p\na,1,5\n' | from-csv '1||sumC'
