# A sheet beyond the limit of its solver: --best gives the cost.
printf 'msp 1\nclass 1||sumwU\njob a p=600000 d=600000 w=1\njob b p=600000 d=900000 w=2\nend\n' > great.txt
mkdir far
echo 'b a' > far/kim.txt
grade great.txt far
grade great.txt far --best 1
