board no-such.txt --address --page x.html
