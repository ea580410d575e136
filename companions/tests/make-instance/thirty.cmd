# Thirty sheets in one call, no two alike, with a table of their answers; best schedules in halves; a shape without room.
make-instance 'P|pmtn|Cmax' 6 1 --times 1:9 --machines 2 --whole 2 --against usual --sheets 30 --to sheets > answers.csv
wc -l < answers.csv
cat sheets/*.txt | grep -c '^msp 1$'
tail -n +2 answers.csv | cut -d, -f3 | sed 's/.*\.5/half/; s/^[0-9]*$/whole/' | sort | uniq -c | sed 's/^ *//'
make-instance 'P|outtree,p=1|Cmax' 8 1 --roots 1 --depth 3 --width 2
