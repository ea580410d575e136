# Of 200 jobs on one machine each has what differs in its name in its bar, in bands where the bars are too short;
# moments that are fractions are written as 3 1/3, the end on the axis is, too.
python3 - > many.txt <<'PYTHON'
names = [f"catalogue_section_{n:03d}_of_the_year" for n in range(200)]
times = [n * 7 % 12 + 1 for n in range(200)]
print("msp 1\nclass 1||Lmax\n" + "".join(f"job {name} p={time} d={n * 7}\n" for n, (name, time) in enumerate(zip(names, times))) + "end")
print("schedule\ncost 3\nunit 3")
at = 1
for name, time in zip(names, times):
    print(f"piece {name} 1 1 {at} {at + 3 * time}")
    at += 3 * time
print("end")
PYTHON
gantt many.txt --time-unit 1h > many.svg
python3 - <<'PYTHON'
import re
from xml.etree import ElementTree
text = open("many.svg").read()
tag = "{http://www.w3.org/2000/svg}"
picture = ElementTree.fromstring(text)
bars = [it for it in picture.iter(f"{tag}g") if it.find(f"{tag}rect") is not None]
labels = [it.findtext(f"{tag}text") for it in bars]
legend = re.findall(r">([A-Z]+) catalogue", text)
print(len(bars), "bars,", labels.count(None), "without label,", len(set(labels)), "labels,", len(legend), "in the legend")
print(all(label in legend or f"section_{label}_" in bar.findtext(f"{tag}title") for label, bar in zip(labels, bars)))
print(len(re.findall(">machine 1<", text)), "bands")
print("end on the axis:", re.findall(">([^<]*1/3)</text>", text)[0])
PYTHON
gantt many.txt --time-unit 1h --by-job > many.svg
grep -c '>machine 1<\|>M1<' many.svg
gantt many.txt --time-unit 1h --start '2026-03-02 06:00' | grep -c '>machine 1<'
# A long job beside many short ones does not make a page of bands.
printf 'schedule\ncost 99\nunit 1\n%s\npiece z 1 1 9 1009\nend\n' "$(for n in 1 2 3 4 5 6 7 8; do echo "piece j$n 1 1 $n $((n + 1))"; done)" | gantt --time-unit 1h | grep -c '>machine 1<'
gantt many.txt --time-unit 1h --bands 3 | grep -c '>machine 1<'
gantt many.txt --time-unit 1h --bands 3 --by-job | grep -o 'stroke-dasharray' | wc -l
gantt many.txt --time-unit 1h --bands 2 --text | grep -c '^machine 1'
gantt many.txt --bands 0 2>&1 | tail -n 1
