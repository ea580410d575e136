# Jobs in the column after stand between commas too, also where a name holds one.
printf 'job;p;after\na;1;\nTür, groß;2;a\nb;1;\nc;3;a, Tür, groß,b\nd;3;Tür, groß\n' | from-csv '1|prec|sumC' | grep '^arc'
printf 'job,p,after\na,1,\nb,2,\nc,3,a;b\n' | from-csv '1|prec|sumC' | grep '^arc'
printf 'job;p;after\na;1;\nb;2;a, x, y\n' | from-csv '1|prec|sumC'; echo "status $?"
