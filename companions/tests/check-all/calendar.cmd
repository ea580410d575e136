# check-all hands shifts and holidays to from-csv, and plan and gantt take them from the file of names.
mkdir shop && printf 'job,p,d\nsaw,9,2026-03-02 15:00\nglue,2,2026-03-04 10:00\n' > shop/monday.csv
echo 2026-03-03 > days.txt
check-all shop '1||Lmax' --time-unit 1h --start '2026-03-02 06:00' --shifts 'Mon-Fri 06:00-14:00' --holidays days.txt
cat shop/plans/monday.plan.csv
