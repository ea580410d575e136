reduces 'P4|tree,p_j=1|Cmax' '1||Cmax'
