# Lawler's choices from the last place on, by lateness and by cost curves.
print-sheet examples/lateness.txt --solution
print-sheet examples/greatest-cost.txt --solution | sed -n '/^| job/,/^Read/p'
