reduces '1||Lmax'
