# A schedule of 400 jobs, from a report.
mkdir many
make-instance '1||sumU' 400 3 --due 0.6 > many.txt
msp solve < many.txt > many/best.txt
grade many.txt many
