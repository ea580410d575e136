# An answer that is neither yes nor no is none; Tmax is said to be decided by Lmax, and another fixed number of machines is pointed to Pm.
printf 'P\nmaybe\n' | choose 2>&1 | sed 's/.*choose: //'
printf 'P\n\n' | choose 2>&1 | sed 's/.*choose: //'
choose '1||Tmax' | head -n 2
choose 'P5||Cmax'; echo "status $?"
