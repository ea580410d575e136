mkdir long
printf 'job,p,d,w\na,600000,600000,1\nb,600000,900000,2\n' > long/list.csv
check-all long '1||sumwU'
