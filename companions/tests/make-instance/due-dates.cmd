make-instance '1|r|sumwT' 3 2 --due 1/2 --weights 1:3 --releases 0:20 --times 5:9
make-instance 'Q|p=p|Lmax' 2 1 --due 0.5 --times 3:5 --machines 3
make-instance 'R2||sumT' 2 1 --due 0 --times 1:5
