# A route names machines by their numbers, or as --machine-names does.
printf 'job;route\nTür;Säge 1,5 Lack 2\nTisch;2 1 1 0,5\n' | from-csv 'J2|n<=2|Cmax' --machine-names Säge,Lack --scale 2 2> notes.txt
printf 'job;route\nTür;Säge 1 Bohrer 2\n' | from-csv 'J2|n<=2|Cmax' --machine-names Säge,Lack; echo "status $?"
