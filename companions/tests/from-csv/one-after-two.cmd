printf 'job,p,after\na,1,\nb,1,\nc,1,a b\n' | from-csv '1|outtree|Cmax'
