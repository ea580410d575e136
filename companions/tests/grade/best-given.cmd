grade hard.txt few --best 3
