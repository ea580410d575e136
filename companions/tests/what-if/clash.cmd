what-if small.csv '1||Lmax' strong > /dev/null
