# The jobs by the names of the list, and how much work is missing in its units.
printf 'msp 1\nclass 1||Cmax\njob Sage p=3\njob b p=2\nend\n' > two.txt
printf 'name,original\n#scale,2\n#cost,2\nSage,Säge\n' > two.names
mkdir pair
printf 'schedule\ncost 4\nunit 1\npiece Sage 1 1 0 2\npiece b 1 1 2 4\nend\n' > pair/kim.txt
printf 'schedule\ncost 5\nunit 1\npiece Sage 1 1 0 3\npiece b 1 1 3 5\nend\n' > pair/lee.txt
printf 'schedule\ncost 5\nunit 1\npiece Sage 1 1 0 3\nend\n' > pair/max.txt
grade two.txt pair --names two.names
