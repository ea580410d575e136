mkdir long
python3 -c '
print("job,p,d")
for n in range(1, 401):
    print(f"order {n},{n * 7 % 13 + 1},{n * 6}")
' > long/list.csv
check-all long '1||sumU' | sed 's/;.*//'
wc -l < long/plans/list.plan.csv
