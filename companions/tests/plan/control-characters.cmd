# Control characters of names are shown as one sign, and break no row; as CSV they come back as they are.
printf 'job,p,d\n"saw\033[31m",1,4\n"glue\007",2,3\n' | from-csv '1||Lmax' --names list.names > list.txt
msp solve < list.txt > list.report
plan list.report --instance list.txt --names list.names | cat -v
plan list.report --csv --names list.names | to-schedule list.txt --names list.names --check
