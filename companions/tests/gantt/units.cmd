# gantt reads the words of plan alike, and takes units from the file of names.
printf 'schedule\ncost 4\nunit 1\npiece a 1 1 0 4\nend\n' > report
printf 'name,original\n#scale,2\n#cost,2\n#time-unit,30min\na,Säge\n' > report.names
gantt report --text --names report.names
gantt report --text --scale 2 --time-unit 30min
gantt report --text --names report.names --scale 4; echo "status $?"
gantt report --text
