printf 'job,machine,start,end\na,1,0,2h\n' | to-schedule shop.txt
