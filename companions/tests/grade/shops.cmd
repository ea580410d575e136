# Orders on identical machines with arcs, in a flow shop, and where jobs may be cut; one that breaks an arc is told.
printf 'msp 1\nclass P2|intree,p=1|Cmax\njob a\njob b\njob c\narc a c\narc b c\nend\n' > tree.txt
mkdir tree shop cut
echo 'a b c' > tree/kim.txt
echo 'order: c, a, b' > tree/lee.txt
echo 'Order: b; a; c' > tree/max.txt
grade tree.txt tree
printf 'cost 7\nshirts\nwool\ntowels\n' > shop/kim.txt
echo 'towels; shirts; wool' > shop/lee.txt
grade examples/flow-shop.txt shop
printf 'msp 1\nclass P2|pmtn|Cmax\njob a p=3\njob b p=3\njob c p=3\nend\n' > cut.txt
echo 'a b c' > cut/kim.txt
grade cut.txt cut --decimal
