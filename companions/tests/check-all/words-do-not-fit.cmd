check-all lists '1||Lmax' --scales 2
