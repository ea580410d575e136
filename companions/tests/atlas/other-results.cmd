atlas --results mine.csv --part 4 --output page.html
atlas --compare page.html --classes 4 | tail -1
