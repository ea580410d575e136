printf 'job,machine,start,end\na,1,0,1,5\n' | to-schedule shop.txt
