# A number in a bar is never taken for another job: what differs in the names, or letters that no name has.
python3 - <<'PYTHON'
for path, names in (("orders.txt", [f"Auftrag_{4700 + it}" for it in range(60)]), ("numbers.txt", [str(it) for it in range(1, 61)]),
                    ("letters.txt", ["A", "b", *(f"long_name_{it}_of_an_order" for it in range(1, 9)), "another_very_long_name_of_an_order"])):
    with open(path, "w") as file:
        file.write("msp 1\nclass 1||Cmax\n" + "".join(f"job {it} p=1\n" for it in names) + "end\nschedule\ncost 60\nunit 1\n")
        file.write("".join(f"piece {it} 1 1 {at} {at + 1}\n" for at, it in enumerate(names)) + "end\n")
PYTHON
cat > read.py <<'PYTHON'
import re, sys
text = sys.stdin.read()
names = dict(re.findall(r"<g><title>([^,<]*),.*?</title>\n(?:<rect[^>]*>\n)+<text[^>]*>([^<]*)</text>", text))
legend = dict(it[::-1] for it in re.findall(r">([A-Z]+) ([^<]*)</text>", text.partition("letters of jobs")[2]))
wrong = [(name, label) for name, label in names.items() if label in names and label != name]
print(len(names), "labels,", len(set(names.values())), "different,", len(legend), "in the legend,", "wrong:", wrong)
print(*list(names.items())[:4])
print("legend as drawn:", all(legend[name] == label for name, label in names.items() if name in legend))
PYTHON
for list in orders numbers letters; do
    gantt $list.txt --bands 1 2> notes | python3 read.py
    gantt $list.txt --bands 1 --width 500 2> notes | python3 read.py
done
gantt numbers.txt --text --bands 1 2> notes | sed -n 3p
gantt numbers.txt --text --bands 3 2> notes | sed -n 3p
gantt orders.txt --text --bands 4 2> notes | sed -n 3p
