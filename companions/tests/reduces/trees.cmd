reduces 'P|tree,p=1|Cmax' 'P|prec,p=1|Cmax' | grep reduces
reduces 'P|tree,p=1|Cmax' 'P|tree,p=1|Lmax' | grep reduces
