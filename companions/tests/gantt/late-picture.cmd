gantt orders-planned.txt --names names.csv
