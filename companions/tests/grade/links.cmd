# A folder that is a link is not walked, and named.
mkdir -p all/kim && cp students/* all/kim 2>/dev/null
ln -s kim all/again
grade sheet.txt all > table.csv; echo "status $?"
grep -c kim table.csv
