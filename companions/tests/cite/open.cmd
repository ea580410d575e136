cite 'O2|prec,p=1|sumC'; cite 'P2|pmtn,p=p|sumwT'
