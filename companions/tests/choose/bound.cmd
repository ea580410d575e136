# The commands that it prints work on an instance: a bound, and schedules only where check finds them feasible.
printf 'msp 1\nclass 1|prec,r|Lmax\njob a p=3 r=0 d=4\njob b p=2 r=1 d=3\narc a b\nend\n' > instance.txt
choose '1|prec,r|Lmax' | grep -E '^ +(sed|cat) ' | while read -r line; do
    sh -c "$line" 2>&1 | grep -E '^start|^cost|^msp|^feasible|^break'
done
choose --instance instance.txt | sed -n '/^no solver/,$p'
