# 1.250 may be a thousand or a fraction: refused, with the words that settle it.
printf 'job;p\nSäge;1.250\n' | from-csv '1||sumC'
printf 'job;p\nSäge;1.250\n' | from-csv '1||sumC' --decimal comma | grep '^job'
printf 'job;p\nSäge;1.250\n' | from-csv '1||sumC' --decimal point --scale 4 2> comment | grep '^job'
printf 'job,p\nsaw,"1,250"\n' | from-csv '1||sumC'
printf 'job,p\nsaw,"1,250"\n' | from-csv '1||sumC' --decimal point | grep '^job'
printf 'job,p\nsaw,1.250\n' | from-csv '1||sumC' --scale 4 2> comment | grep '^job'
printf 'job;p\nSäge;1.250,5\nTür;1.250.000\nHut;12 500\n' | from-csv '1||sumC' --scale 2 2> comment | grep '^job'
