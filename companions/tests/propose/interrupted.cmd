# Ctrl-C prints the best so far: here once the search has told a cost.
printf 'msp 1\nclass 1||sumwT\n' > many.txt
for i in $(seq 40); do echo "job j$i p=$((i * 37 % 50 + 1)) d=$((i * 91 % 700)) w=$((i * 13 % 9 + 1))"; done >> many.txt
echo end >> many.txt
cat > interrupt.py <<'PYTHON'
import signal, subprocess
call = subprocess.Popen(["propose", "many.txt", "--tries", "100000000", "--progress"], stdout=open("best.txt", "w"), stderr=subprocess.PIPE, text=True)
for line in call.stderr:
    if "cost" in line:
        call.send_signal(signal.SIGINT)
        break
call.stderr.read()
print("status", call.wait())
PYTHON
python3 interrupt.py
grep -c interrupted best.txt
{ cat many.txt; sed -n '/^schedule/,$p' best.txt; } | msp check | grep feasible
