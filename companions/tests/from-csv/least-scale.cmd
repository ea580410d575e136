printf 'job,p,d\na,1.5,2\nb,1,0.2\n' | from-csv '1||Lmax'
