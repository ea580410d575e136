# The axis has dates whatever the shifts are: at noon and midnight nothing is worked.
printf 'msp 1\nclass 1||Cmax\njob a p=10\njob b p=16\njob c p=30\nend\n' > list.txt
msp solve < list.txt > report
for shifts in 'Mo-Fr 08:00-12:00,13:00-17:00' 'Mo-Fr 07:15-11:45' 'Sa 09:30-10:10' 'Mo-So 22:00-05:00'; do
    gantt report --instance list.txt --time-unit 30min --start '2026-03-02 08:00' --shifts "$shifts" --text 2> notes | grep '|20'
    gantt report --instance list.txt --time-unit 30min --start '2026-03-02 08:00' --shifts "$shifts" 2> notes | grep -o '>20[0-9: -]*</text>' | tr -d '\n'; echo
done
