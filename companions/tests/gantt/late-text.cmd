gantt orders-planned.txt --text
