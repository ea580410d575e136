# Dates as people write them; of a day the weekday has to be the right one, and a clock time alone is one of the day of --start.
python3 - > forms.csv <<'PYTHON'
forms = ["02.03.26 12:00", "Mo 02.03.2026 12:00", "02. März 2026, 12 Uhr", "2. Mrz. 26 12.00 Uhr", "Montag, 2.3.2026 um 12:00 Uhr", "2026-03-02 12:00:00",
         "March 2, 2026 12 PM", "2 Mar 2026 12:00", "12 Uhr", "12:00", "02.03.2026 24:00"]
print("job;p;d\n" + "\n".join(f"j{at};1;{it}" for at, it in enumerate(forms)))
PYTHON
from-csv '1||Lmax' --time-unit 1h --start '2026-03-02 06:00' < forms.csv | grep '^job'
printf 'job;p;d\na;1;Di 02.03.2026\nb;1;31.02.26\nc;1;05:00\nd;1;bald\n' | from-csv '1||Lmax' --time-unit 1h --start '2026-03-02 06:00'; echo "status $?"
printf 'job;p;d\na;1;18 Uhr\n' | from-csv '1||Lmax'
