grade hard.txt nothing
