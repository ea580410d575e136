# (awk prints 6 digits of such numbers)
printf 'schedule\ncost 3000001/2\nunit 2\npiece a 1 1 0 3000001\nend\n' | plan --csv
printf 'schedule\ncost 3000001/2\nunit 10000000000000\npiece a 1 1 1 200000000000000000000000001\nend\n' | plan --csv --scale 3
