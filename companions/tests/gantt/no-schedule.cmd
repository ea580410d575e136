gantt orders.txt
