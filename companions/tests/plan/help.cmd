plan --help | head -n 3
