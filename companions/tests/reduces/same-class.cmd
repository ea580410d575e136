reduces '1||Lmax' '1||L_max'
