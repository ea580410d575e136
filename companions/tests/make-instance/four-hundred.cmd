make-instance '1|prec|Lmax' 400 3 --due 0.5 | msp solve | grep -c '^piece'
make-instance 'F3|r,p=p|sumwT' 400 3 --due 0.5 --times 1:1000000 | cksum
