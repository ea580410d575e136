printf 'job,machine,start,end\na,1,0,2\nc,2,2,4\n' | to-schedule shop.txt
