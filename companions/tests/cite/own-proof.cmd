cite 'Q|r,p=p|fmax'
