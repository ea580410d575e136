# A cost is told in one unit by all: hours and minutes, weighted sums in weight-hours, late jobs as such.
printf 'job;p;w;d\na;1,5;2;2026-03-02 07:00\nb;2;1,5;2026-03-02 08:00\n' > list.csv
for class in '1||sumwC' '1||sumC' '1||sumU' '1||sumwU' '1||Lmax' '1||Cmax'; do
    scale=; case $class in *w*) scale='--scale-weights 2';; esac
    from-csv "$class" --scale 2 $scale --time-unit 1h --start '2026-03-02 06:00' --names list.names < list.csv > list.txt 2> notes
    msp solve < list.txt > report
    echo "$class $(grep '^cost' report)"
    plan report --instance list.txt --names list.names | tail -n 1
    gantt report --instance list.txt --names list.names --text | head -n 1
    plan report --csv --names list.names | to-schedule list.txt --names list.names --check
done
