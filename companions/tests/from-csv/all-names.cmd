# Faults of names, of fields beyond the columns, of numbers and of the order are told together, in the order of their lines.
from-csv '1|outtree|Lmax' <<'TEXT'
job;p;d;after
a;;5;
b;x;7;nobody
b;3;y;a|b
;3;4;
c;3;4;;more
TEXT
