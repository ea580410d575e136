printf 'job;p;note;note\na;1;x;y\n' | from-csv '1||sumC'
printf 'job;p;p\na;1;2\n' | from-csv '1||sumC'
