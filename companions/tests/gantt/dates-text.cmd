gantt shop.txt --by-job --text --start '2026-11-30 06:00' --time-unit 90min
