printf 'job,d\na,3\nb,5\n' | from-csv 'Q|p=p|Lmax' --machines 2 --speeds 2/3,2 --time 5
