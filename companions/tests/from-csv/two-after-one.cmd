printf 'job,p,after\na,1,\nb,1,a\nc,1,a\n' | from-csv '1|intree|Cmax'
