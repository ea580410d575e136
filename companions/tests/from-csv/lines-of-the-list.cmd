printf 'job,p\n"a\nb",3\n\nc,0\n' | from-csv '1||sumC'
