cite 'P2|pmtn,p=1|Cmax'
