# A last row of sums is refused by its name, also where its fields are filled, or where a number is the sum of those above it.
for last in 'Summe;9;' 'Summe:;9;30' 'Gesamt (Std);9;30' 'Total hours;9;30' 'Σ;;' ';9;' ';;Summe' 'KW 10;9;'; do
    printf 'job;p;d\na;2;9\nb;3;12\nc;4;9\n%s\n' "$last" | from-csv '1||Lmax' 2>&1 | tail -n 1
done
# In each column: minutes of one, hours of the other.
printf 'job;p1 [min];p2 [h]\na;90;1,5\nb;30;0,5\nboth;120;2\n' | from-csv 'F2||Cmax'; echo "status $?"
printf 'job;p1 [min];p2 [h]\na;90;1,5\nb;30;0,5\n;120;2\n' | from-csv 'F2||Cmax'; echo "status $?"
# Left out, or a job, where that is said; a last job that is none of both stays.
printf 'job;p\na;2\nb;3\nSumme;5\n' | from-csv '1||sumC' --sum-row drop | grep '^job'
printf 'job;p\na;2\nb;3\nSumme;5\n' | from-csv '1||sumC' --sum-row keep | grep '^job'
printf 'job;p\na;2\nb;3\nc;6\n' | from-csv '1||sumC' --sum-row drop | grep -c '^job'
printf 'job;p\na;1\nb;2\nc;3\n' | from-csv '1||sumC' | grep -c '^job'
printf 'job;p\nSumme;5\n' | from-csv '1||sumC' --sum-row drop; echo "status $?"
