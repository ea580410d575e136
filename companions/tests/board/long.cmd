head -c 1200000 /dev/zero | tr '\0' x > long.txt; printf x > page.html; board long.txt --address --page page.html
