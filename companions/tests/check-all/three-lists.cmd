check-all lists '1||Lmax' --scale 2
echo "status $?"
ls lists/plans
cat lists/plans/monday.plan.csv lists/plans/tuesday.plan.csv
