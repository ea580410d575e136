gantt nothing.txt
