printf 'job,machine,start,end\na,1,3,5\na,1,0,1\na,1,1,2\na,2,2,3\na,1,5,6\n' | to-schedule again.txt
