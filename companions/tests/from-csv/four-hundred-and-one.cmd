python3 -c '
print("job,p")
for n in range(1, 402):
    print(f"a{n},1")
' | from-csv '1||sumC'
