cite '1|r_j|Lmax'
