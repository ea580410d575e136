# The words by which the search finds entries: short names, marks left out or spelt, and every entry, whether it decides a class or not.
atlas --part 3 --output page.html
grep -o '"Hu 1961":\["hu 1961"' page.html
grep -o '"Du and Leung 1990":\["du and leung 1990"' page.html
grep -o '"Bräsel, Kluge and Werner 1994":\["brasel kluge and werner 1994 braesel"' page.html
python3 -c "
import json, re
page = open('page.html', encoding='utf-8').read()
data = json.loads(re.search('<script id=\"data\" type=\"application/json\">(.*?)</script>', page, re.S)[1].replace('<\\\\\\\\/', '</'))
lines = sum(1 for _ in open('examples/known-strengths.csv', encoding='utf-8')) - 1
print(len(data['entries']) == lines + 1 and 'every entry, and a weaker one that is published')"
