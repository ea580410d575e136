# A program that says another cost, or finds the schedule not feasible: nothing is written.
mkdir wrong sheets
printf '#!/bin/sh\nmsp "$@" | sed "s/^cost .*/cost 9/"\n' > wrong/cost
printf '#!/bin/sh\n[ "$1" != check ] || { printf "feasible no\\nbreak machine 1 2\\nend\\n"; exit 1; }\nmsp "$@"\n' > wrong/break
chmod +x wrong/*
cp examples/late-jobs.txt examples/lateness.txt sheets
print-sheet examples/late-jobs.txt --solution --program wrong/cost; echo "status $?"
print-sheet examples/late-jobs.txt --solution --program wrong/break; echo "status $?"
print-sheet sheets --to printed --solution --program wrong/cost; echo "status $?"
ls printed
