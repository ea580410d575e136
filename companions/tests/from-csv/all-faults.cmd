# All faults at once, each with its line and what stands in the cell.
printf 'job;p;d;w\nSäge;x;9;1\nTür;2;bald;0\nHut;;9;1,5,5\n' | from-csv '1||sumwT'
