mkdir lists/plans
touch lists/plans/wednesday.plan.csv lists/plans/another.plan.csv
check-all lists '1||Lmax' --scale 2 > lines
ls lists/plans/*.plan.csv
