# Slips of format are mended, told, and the schedule is judged all the same.
mkdir slips
{ cat sheet.txt; msp solve < sheet.txt | sed -n '/^schedule$/,$p'; } > best.txt
msp solve < sheet.txt | sed -n '/^schedule$/,$p' > best
sed 's/$/\r/' best > slips/windows.txt
{ printf '\357\273\277'; cat best; } > slips/mark.txt
{ cat best; printf '\n\n'; } > slips/blank.txt
printf %s "$(cat best)" > slips/cut.txt
sed '/^end$/d' best > slips/no-end.txt
sed '/^unit/d; s/\([0-9]\)$/\1,0/' best > slips/decimals.txt
{ printf '\377\376'; cat best | iconv -t utf-16le; } > slips/wide.txt
tr a-z A-Z < best | sed 's/PIECE A/piece a/; s/PIECE B/piece b/; s/PIECE C/piece c/; s/PIECE D/piece d/' > slips/capitals.txt
sed 's/ /\t/' best > slips/tabs.txt
grade sheet.txt slips
