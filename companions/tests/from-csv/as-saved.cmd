# Separators, marks, line ends and letters as spreadsheets save them: one instance each time.
{
    printf 'job;p\nSäge;1\nTür;2\n' | from-csv '1||sumC'
    printf 'sep=;\njob;p\nSäge;1\nTür;2\n' | from-csv '1||sumC'
    printf 'job;p\nSäge;1\nTür;2\n' | iconv -t utf-16 | from-csv '1||sumC'
    printf '\357\273\277job;p\nSäge;1\nTür;2\n' | from-csv '1||sumC' --encoding cp1252
    printf 'job;p\rSäge;1\rTür;2\r' | from-csv '1||sumC'
    printf 'job;p;;\nSäge;1;;\nTür;2;;\n;;;\n' | from-csv '1||sumC'
    printf 'job;p\nSa\314\210ge;1\nTu\314\210r;2\n' | from-csv '1||sumC'
} | sort | uniq -c
printf 'job;p;after\n"Säge\nholen";1;\nTür;2;Säge holen\n' | from-csv '1|prec|sumC' --names breaks.names
cat breaks.names
