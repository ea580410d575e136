# Shifts and holidays that cannot be meant are refused, with what settles it.
try() {
    printf 'job,p,d\nsaw,1,2026-03-03 12:00\n' | from-csv '1||Lmax' --time-unit 1h --start '2026-03-02 06:00' "$@" 2>&1
    echo "status $?"
}
try --shifts 'Mon-Fri'
try --shifts ''
try --shifts 'Mo-Fx 06:00-14:00'
try --shifts 'Mon-Fri 6-14'
try --shifts 'Mon-Fri 06:00-25:00'
try --shifts 'Mon-Fri 06:00-06:00'
try --shifts 'Mon-Fri 06:00-14:00; Wed 13:00-15:00'
try --shifts 'Sun 22:00-06:00; Mon 05:00-14:00'
for line in '24.12.26' '2026-02-30' '2026-12-24..' '2027-01-01..2026-12-24' '2026-01-01..2036-01-01'; do
    printf '# days\n%s\n' "$line" > days.txt
    try --shifts 'Mon-Fri 06:00-14:00' --holidays days.txt
done
printf '2026-01-01..2026-12-31\n2027-01-01..2027-12-31\n' > days.txt
try --shifts 'Mon-Fri 06:00-14:00' --holidays days.txt
try --holidays days.txt
try --shifts 'Mon-Fri 06:00-14:00' --holidays no-days.txt
printf 'job,p\nsaw,1\n' | from-csv '1||Cmax' --time-unit 1h --shifts 'Mon-Fri 06:00-14:00'; echo "status $?"
