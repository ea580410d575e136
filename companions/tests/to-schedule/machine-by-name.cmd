printf 'job,machine,start,end\na,saw,0,2\n' | to-schedule shop.txt
