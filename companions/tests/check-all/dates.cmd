rm lists/wednesday.csv
check-all lists '1||sumU' --scale 2 --time-unit 1h --start '2026-03-02 08:00'
cat lists/plans/monday.plan.csv
