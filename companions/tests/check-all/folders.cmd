# Folders are walked, .CSV is a list, and each file that is left out is named.
mkdir -p plant/north plant/south
cp lists/monday.csv plant/north/week.csv
cp lists/monday.csv plant/south/week.CSV
cp lists/monday.csv plant/south/week.csv
echo note > plant/README.txt
check-all plant '1||Lmax' --scale 2; echo "status $?"
find plant/plans -name '*.csv' | sort
