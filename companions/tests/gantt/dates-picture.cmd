gantt shop.txt --start '2026-11-30 06:00' --time-unit 90min --width 600 --title 'Monday' | grep -v '<g>'
