atlas --results clash.csv --part 3 --output page.html
echo "status $?"
grep -o '"clashes":\[[^a-z]*"clash"' page.html
