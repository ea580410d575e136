printf 'job,p\na,3:30\n' | from-csv '1||sumC'
