# What verify says of evidence as it is written, of a bound one up, of a step left out, of another instance, and of no folder.
companions="$(dirname "$(command -v choose)")"
cat > hall.txt <<'TEXT'
msp 1
class P||Cmax
machines 2
job a p=4
job b p=5
job c p=2
end
TEXT
PYTHONPATH="$companions" python3 - <<'PYTHON'
from msp_tools import Instance
from msp_tools.bounds import bounds_of
from msp_tools.evidence import write_evidence
hall = Instance.from_file("hall.txt")
plan = "schedule\ncost 6\nunit 1\npiece a 1 1 0 4\npiece c 1 1 4 6\npiece b 1 2 0 5\nend\n"
write_evidence("evidence", hall, plan, bounds_of(hall))
PYTHON
ls evidence
verify evidence
verify evidence --json
cp -r evidence one-up && sed 's/^6 argued/7 argued/' evidence/bounds.txt > one-up/bounds.txt
verify one-up; echo "status $?"
cp -r evidence left-out && sed 's/ whole//' evidence/bounds.txt > left-out/bounds.txt
verify left-out; echo "status $?"
cp -r evidence other && sed 's/p=5/p=4/' hall.txt > other/instance.txt
verify other; echo "status $?"
verify nowhere; echo "status $?"
