# Bounds and costs say in what units they are: those of the instance, or with the file of names those of the list.
printf 'job;p;r;d\na;1,5;0;4\nb;2;1;3\nc;0,5;2;2,5\n' | from-csv '1|r|Lmax' --scale 2 --names list.names > list.txt 2> notes.txt
choose --instance list.txt | grep -E '^(lower|schedules|  )'
choose --instance list.txt --names list.names | grep -E '^(lower|schedules|  )'
choose '1|r|Lmax' --names list.names; echo "status $?"
