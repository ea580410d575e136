# Lists as spreadsheets save them in UTF-16: tabs between the columns.
python3 -c "
import sys
sys.stdout.buffer.write('Auftrag\tDauer\tTermin\r\nSäge\t1,5\t02.03.2026 12:00\r\nTür\t0:30\t02.03.2026 09:00\r\n'.encode('utf-16'))" > list.txt
from-csv '1||Lmax' --column job=Auftrag --column time=Dauer --column due=Termin --time-unit 1h --start '02.03.2026 08:00' --scale 2 < list.txt
printf 'job\tp\na\t3\n' | from-csv '1||sumC'
printf 'job\tp, in h\na\t3\n' | from-csv '1||sumC' --column 'p=p, in h'
