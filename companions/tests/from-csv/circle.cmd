printf 'job,p,after\na,1,c\nb,1,a\nc,1,b\n' | from-csv '1|prec|Cmax'
