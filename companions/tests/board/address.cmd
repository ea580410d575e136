printf 'x' > page.html; printf 'msp 1\nclass 1||sumC\njob a p=1\nend\n' | board - --address --page page.html | sed 's,.*/,,'
