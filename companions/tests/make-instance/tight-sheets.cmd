# Of 20 sheets with due dates that are tight, so many have a cost of 0.
for seed in 1 2 3 4 5 6 7 8 9 10 11 12 13 14 15 16 17 18 19 20; do
    make-instance '1||sumU' 8 $seed --due 0.7 | msp solve | grep '^cost'
done | grep -c '^cost 0$'
