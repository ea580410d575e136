replan --help | head -n 2
