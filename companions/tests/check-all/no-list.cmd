mkdir empty
check-all empty '1||Lmax'
