# The unit of a column stands in its header; several units in one list, the finest counts, and the file of names says it.
cat > week.csv <<'TEXT'
Auftrag;Waschen (min);Mangeln (Std)
Hotel Post;90;1,5
Klinik;45;0,75
Pension;2:00;1:30
TEXT
from-csv 'F2||Cmax' --column job=Auftrag --column p1=Waschen --column 'p2=Mangeln (Std)' --names week.names < week.csv
grep '^#' week.names
# Dates count in the unit of their own header.
printf 'job,p [min],d (Tage)\na,90,1\nb,30,0.5\n' | from-csv '1||Lmax' | grep '^job'
printf 'job,"time in hours",due\na,1.5,3\n' | from-csv '1||Lmax' --column 'p=time' --column d=due --scale 2 --names hours.names | grep '^job'
grep '^#time-unit' hours.names
# What contradicts the words, or is not known, is refused; a unit that is said twice is no fault.
printf 'job;p [min]\na;90\n' | from-csv '1||sumC' --time-unit 1h
printf 'job;p [min]\na;90\n' | from-csv '1||sumC' --time-unit 60s | grep '^job'
printf 'job;p;d [Std]\na;90;3\n' | from-csv '1||Lmax' --time-unit 1min --date-unit 1d
printf 'job;p1 [min];p2\na;90;3\n' | from-csv 'F2||Cmax'
printf 'job;p;d [Std]\na;90;3\n' | from-csv '1||Lmax'
# What is no unit belongs to the name.
printf 'job;p (alt)\na;90\n' | from-csv '1||sumC' --column 'p=p (alt)' | grep '^job'
