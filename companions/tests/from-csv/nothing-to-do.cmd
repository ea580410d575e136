printf 'job,p1,p2\na,1,2\nb,0,0\n' | from-csv 'O2||Cmax'
