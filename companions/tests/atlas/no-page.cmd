atlas --compare mine.csv
