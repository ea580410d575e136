check-all --help | head -n 3
