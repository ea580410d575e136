reduces '1||Lmax' '1||Tmax'
