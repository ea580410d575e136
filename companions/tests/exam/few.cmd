exam 900 1 --environment J2 --rows 1 | grep -c '^## Question'
exam 900 1 --environment J2 --rows 1 > /dev/null
