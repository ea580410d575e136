python3 -c '
print("job;p;d;w;after")
for n in range(1, 401):
    print(f"Auftrag Nr. {n} für Müller & Söhne;{n % 7 + 1},{n % 2 * 5};{n * 4},5;{n % 9 + 1};" + (f"Auftrag Nr. {n // 2} für Müller & Söhne" if n > 1 else ""))
' > list.csv
from-csv '1|outtree|sumwC' --scale 2 --names names.csv < list.csv > instance.txt
head -n 4 instance.txt; tail -n 3 instance.txt; tail -n 1 names.csv
msp solve < instance.txt | grep '^cost'
