propose --help | head -n 2
