# As course systems hand out: a folder for each student; two files of one stem are told apart; nothing read at all is status 2.
mkdir -p all/anna_17 all/ben_18 empty
cp students/anna.txt all/anna_17/answer.txt
cp students/ben.txt all/ben_18/first.txt
cp students/ben.txt all/ben_18/first.csv
touch all/.DS_Store
grade sheet.txt all
grade sheet.txt empty; echo "status $?"
