cite --results mine.csv '1||sumC'; cite --results mine.csv '1|r|sumT'; cite --bibtex --results mine.csv '1|r|sumT'
