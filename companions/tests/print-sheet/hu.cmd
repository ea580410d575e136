# Hu: levels, and each unit of time, on an intree, an outtree and chains.
printf 'msp 1\nclass P2|intree,p=1|Cmax\njob a\njob b\njob c\njob d\njob e\narc a d\narc b d\narc d e\narc c e\nend\n' > tree.txt
print-sheet tree.txt --solution
sed 's/intree/outtree/; s/^arc \(.\) \(.\)/arc \2 \1/' tree.txt > out.txt
print-sheet out.txt --solution | tail -n 1
printf 'msp 1\nclass P|chains,p=1|Cmax\nmachines 2\njob a\njob b\njob c\njob d\njob e\narc a b\narc b c\nend\n' > chains.txt
print-sheet chains.txt --solution | tail -n 1
