printf 'job;p;;\na;1;;\n' | from-csv '1||sumC'
printf 'job;p;;\na;1;;3\n' | from-csv '1||sumC'
