# The same questions, with chains, references, times and the problems from which they were reduced.
exam 4 3 --solution
exam 2 9 --environment J2 --rows 2 --solution | grep -c 'of the literature'
