# All that a bound rests on, in a new folder; a folder that has something in it is refused.
propose lathes.txt --evidence evidence > plan.txt
ls evidence
verify evidence
propose lathes.txt --evidence evidence; echo "status $?"
