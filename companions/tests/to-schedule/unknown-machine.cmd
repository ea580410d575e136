printf 'job,machine,start,end\na,3,0,2\n' | to-schedule shop.txt
