# Folders that are links, or begin with a dot, are not walked, and named; an empty list is told to be so.
mkdir -p all/week all/.old && printf 'job;p;d\na;1;4\n' > all/week/list.csv && cp all/week/list.csv all/.old
ln -s week all/again && : > all/empty.csv
check-all all '1||Lmax'; echo "status $?"
