make-instance '1||sumU' 5 1 --against best; echo "status $?"
make-instance '1||sumwU' 5 1 --against usual; echo "status $?"
make-instance 'O2||Cmax' 5 1 --against spt; echo "status $?"
make-instance 'P||sumC' 5 1 --against first; echo "status $?"
make-instance 'P|r,p=1|Lmax' 5 1 --against late-last
