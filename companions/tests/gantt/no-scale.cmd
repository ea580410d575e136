gantt shop.txt --scale 0
