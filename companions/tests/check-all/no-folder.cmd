check-all list '1||Lmax'
