printf 'job,p\na,1\n"b,2\n' | from-csv '1||sumC'
