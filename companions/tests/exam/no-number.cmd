exam 0 1
