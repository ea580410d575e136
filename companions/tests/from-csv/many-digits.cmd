# Numbers of thousands of digits are refused in a line.
long=$(printf '%05000d' 7 | tr 0 1)
printf 'job,p\na,%s\n' "$long" | from-csv '1||sumC'
printf 'schedule\ncost %s\nunit 1\nend\n' "$long" | plan 2>&1 | tail -n 1
printf 'schedule\ncost %s\nunit 1\nend\n' "$long" | gantt 2>&1 | tail -n 1
