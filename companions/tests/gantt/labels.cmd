# Labels tell jobs apart: cut in the middle where that is the only such one, else what differs in the names; titles in words and units.
python3 - > long.txt <<'PYTHON'
names = [f"catalogue_section_{n:02d}_of_the_year" for n in range(1, 13)] + ["posters_of_the_town_hall"]
print("msp 1\nclass 1||sumwU\n" + "".join(f"job {it[:32]} p=2 d={at * 2} w=3\n" for at, it in enumerate(names)) + "end")
PYTHON
{ cat long.txt; msp solve < long.txt | sed -n '/^schedule$/,$p'; } > planned.txt
gantt planned.txt --time-unit 1h --width 900 > long.svg
grep -o '>posters[^<]*</text>\|>0[12]</text>\|[0-9]* late of weight[^<]*\|letters of jobs\|>[A-Z] catalogue[^<]*_0[12]_[^<]*<' long.svg
gantt planned.txt --by-job --width 900 | grep -c '>M1<'
printf 'msp 1\nclass P||Cmax\nmachines 2\njob a p=569\nend\nschedule\ncost 569\nunit 1\npiece a 1 1 0 569\nend\n' | gantt --time-unit 5min --text | sed -n '1,2p'
printf 'schedule\ncost 10/3\nunit 3\npiece a 1 1 0 10\nend\n' | gantt --text
