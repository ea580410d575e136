printf 'job;p\r\nS\344ge;3\r\n' | from-csv '1||sumC'
printf 'job;p\r\nS\344ge;3\r\n' | from-csv '1||sumC' --encoding cp1252
