cite 'J3|p_ij=1|Cmax' | head -n 3
cite 'P4|tree,p_j=1|Cmax' | head -n 5
