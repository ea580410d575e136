# Pieces that overlap are red, in the text #; machines have names; an odd name is no invalid picture, a narrow one no negative width.
printf 'schedule\ncost 5\nunit 1\npiece a 1 1 0 3\npiece b 1 1 2 5\npiece c 1 2 0 2\nend\n' > two.txt
printf 'name,original\n#scale,1\n#machine 1,Säge\na,Haus\001tür\nb,b\nc,c\n' > two.names
gantt two.txt --names two.names --text --machine-names 'Säge,Presse'
gantt two.txt --names two.names > two.svg
python3 -c 'import xml.dom.minidom as dom; dom.parse("two.svg"); print("a picture")'
grep -c 'fill="#c00000"' two.svg
grep -o 'machine 2\|>Säge<' two.svg | sort -u
gantt two.txt --names two.names --width 250 | grep -c 'width="-'
gantt two.txt --names two.names --width 150; echo "status $?"
