# The list of all labels beside the page: that of the published results alone, the entries that decide, references, the solver.
atlas --part 9720 --output page.html --labels labels.csv
head -1 labels.csv
grep -E '^(1\|\|sumU|J\|n<=2\|Cmax|"P3\|prec,p=1\|Cmax"),' labels.csv
python3 -c "
import csv
lines = list(csv.DictReader(open('labels.csv', newline='', encoding='utf-8')))
print(len(lines), sum(it['label'] == 'open' for it in lines), sum(it['published'] == 'open' for it in lines))"
