# Words that do not fit, and an end.
propose press.txt > press.plan
replan press.txt press.plan; echo "status $?"
replan press.txt press.plan --now soon; echo "status $?"
replan press.txt press.plan --now 5 --gone nobody; echo "status $?"
replan press.txt press.plan --now 5 --failed 1=20; echo "status $?"
replan press.txt press.plan --now 5 --failed 1; echo "status $?"
replan press.txt press.plan --now 5 --left posters; echo "status $?"
replan press.txt press.plan --now 5 --done flyers:2; echo "status $?"
replan press.txt press.plan --now 5 --rush press.txt; echo "status $?"
replan press.txt press.plan --now 500; echo "status $?"
# Old plans that do not fit: a job that there is not, an operation, and work that is missing.
sed 's/^piece posters /piece prints /' press.plan > other.plan
replan press.txt other.plan --now 5; echo "status $?"
sed 's/^piece posters 1 /piece posters 2 /' press.plan > operation.plan
replan press.txt operation.plan --now 5; echo "status $?"
sed '/^piece posters /d' press.plan > less.plan
replan press.txt less.plan --now 5; echo "status $?"
