# One's own plan is where the search begins, and one that is not feasible is refused.
printf 'schedule\ncost 0\nunit 1\npiece b 1 1 1 4\npiece c 1 1 4 6\npiece a 1 1 6 10\nend\n' > own.txt
propose arrivals.txt --from own.txt --progress --tries 10 | head -n 3
printf 'schedule\ncost 0\nunit 1\npiece b 1 1 0 3\npiece c 1 1 4 6\npiece a 1 1 6 10\nend\n' > early.txt
propose arrivals.txt --from early.txt
