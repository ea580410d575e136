# Days and clock times as German plants write them, and holidays too; the file of names has them in one form.
printf '24.12.2026\n25.12.2026..26.12.2026\n' > days.txt
for shifts in 'Mon-Fri 06:00-14:00; Sat 06:00-12:00' 'Mo-Fr 6:00-14:00; Sa 6.00-12.00' 'montag–freitag 06:00–14:00; Samstag 06:00-12:00'; do
    printf 'job;p;d\nsaw;1;2027-01-04 12:00\n' | from-csv '1||Lmax' --time-unit 1h --start '2026-12-23 06:00' --shifts "$shifts" --holidays days.txt --names names.csv 2> notes.txt | grep '^job'
    grep -E '^#(shifts|holidays)' names.csv
done
