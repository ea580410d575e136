# Shops with release dates and weights, as JSON; work that may be cut; Q.
propose shop.txt --json | head -n 5
propose cut.txt
printf 'msp 1\nclass Q|prec|sumC\nmachines 2\nspeeds 2 3\njob a p=5\njob b p=4\njob c p=3\narc a b\nend\n' | propose
