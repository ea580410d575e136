grade hard.txt few
