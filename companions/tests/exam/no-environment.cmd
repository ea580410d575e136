exam 3 1 --environment P4
