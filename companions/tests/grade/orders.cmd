# An order of all jobs is a schedule where each job begins as early as it can; elsewhere it is told that it is none.
mkdir orders shop
sed -n 's/^job \([^ ]*\) .*/\1/p' sheet.txt > orders/lines.txt
sed -n 's/^job \([^ ]*\) .*/\1/p' sheet.txt | paste -sd, > orders/commas.txt
sed -n 's/^job \([^ ]*\) .*/\1/p' sheet.txt | head -n 2 > orders/short.txt
grade sheet.txt orders
printf 'msp 1\nclass O2||Cmax\njob a\ntimes 1 2\nend\n' > open.txt
echo a > shop/kim.txt
grade open.txt shop
