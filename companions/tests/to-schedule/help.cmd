to-schedule --help | head -n 3
