gantt shop.txt --start tomorrow
