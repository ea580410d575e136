reduces '1||Lmax' '1|prec|fmax' --both
