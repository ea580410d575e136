atlas --results mine.csv --part 12 > page.html
atlas --results mine.csv --compare page.html --classes 12
