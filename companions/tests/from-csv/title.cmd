# A title above the names of the columns is found and said, with blank lines and fewer separators too; a list without one is read as before.
printf 'Wochenplan KW 10, Halle 2\n\nAuftrag;Dauer;Termin\nSäge;3;9\n' | from-csv '1||Lmax' --column job=Auftrag --column time=Dauer --column due=Termin
printf 'Plan,,\nby Ann,,\njob,p,d\nsaw,3,9\n' | from-csv '1||Lmax' | grep '^job'
# Where no line names the columns, the first one with several fields is taken for the header.
printf 'Wochenplan\nAuftrag;Dauer\nSäge;3\n' | from-csv '1||sumC'; echo "status $?"
