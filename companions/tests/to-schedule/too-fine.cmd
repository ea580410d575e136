printf 'job,machine,start,end\na,1,0,1/10000000000001\n' | to-schedule shop.txt
