what-if small.csv '1||Lmax' strong | head -n 30
