# A schedule that begins a job before its release date is none: choose --instance leaves it out, and no command makes it.
printf 'msp 1\nclass 1|r|Lmax\njob a p=3 r=5 d=8\njob b p=2 r=0 d=9\nend\n' > instance.txt
choose '1|r|Lmax' | sed -n '/that may serve/,$p'
choose --instance instance.txt | sed -n '/^lower/,$p'
sed 's/r=5/r=0/' instance.txt > early.txt
choose --instance early.txt | sed -n '/^lower/,$p'
