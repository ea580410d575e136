# A naive rule must fail; best schedules in whole numbers; trees by shape.
make-instance '1||sumU' 5 1 --times 1:9 --due 0.6 --against edd --sheets 3 --to late
make-instance 'F2||Cmax' 5 1 --times 1:9 --against spt --sheets 3 --to shop
make-instance 'P3|pmtn|Cmax' 5 1 --times 1:9 --whole --sheets 3 --to whole
make-instance 'P|intree,p=1|Cmax' 8 1 --machines 2 --depth 3 --width 3 --roots 2 | grep '^arc'
make-instance '1||sumC' 5 1 --against edd
