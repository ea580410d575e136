# The best that each rule gives.
propose arrivals.txt --candidates
