gantt shop.txt --instance examples/flow-shop.txt
