exam 3 7
