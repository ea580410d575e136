# Several naive rules fail at once, and the usual mistakes of each class that has a rule by hand.
make-instance '1||sumwC' 5 1 --times 1:9 --weights 1:9 --against spt,weight,list --sheets 2 --to several
draw() { make-instance "$@" --against usual --sheets 1 --to usual; }
draw '1||sumU' 6 1 --times 1:9 --due 0.6
draw 'F2||Cmax' 6 1 --times 1:9
draw 'P|intree,p=1|Cmax' 12 1 --machines 2 --depth 4 --roots 2
draw 'P|pmtn|Cmax' 6 1 --times 1:9 --machines 3
draw '1||sumC' 6 1 --times 1:9
draw '1||Lmax' 6 1 --times 1:9 --due 0.5
draw '1|prec|Lmax' 6 1 --times 1:9 --due 0.5
draw '1|prec|fmax' 6 1 --times 1:9
draw '1|pmtn,r|sumC' 6 1 --times 1:9 --releases 0:20
draw '1|pmtn,r|Lmax' 6 1 --times 1:9 --releases 0:20 --due 0.3
