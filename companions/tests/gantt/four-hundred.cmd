# A best order of 400 jobs, drawn by machine and by job: as many bars, and no name outside its bar.
make-instance '1||Lmax' 400 3 --due 0.6 > many.txt
msp solve < many.txt > many-planned.txt
gantt many-planned.txt --instance many.txt | grep -c '<g>'
gantt many-planned.txt --instance many.txt --by-job | grep -c '<g>'
gantt many-planned.txt --instance many.txt --text | awk 'length > 80' | wc -l
