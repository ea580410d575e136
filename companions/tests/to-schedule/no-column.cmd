printf 'job,machine,from,to\na,1,0,2\n' | to-schedule shop.txt
