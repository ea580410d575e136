printf 'msp 1\nclass P3|pmtn|Cmax\njob a p=3\njob b p=3\njob c p=3\njob d p=1\nend\n' > thirds.txt
mkdir third
msp solve < thirds.txt > third/kim.txt
grade thirds.txt third --decimal
