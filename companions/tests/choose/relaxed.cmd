choose '1|prec,r|Lmax'
