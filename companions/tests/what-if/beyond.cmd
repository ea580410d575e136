what-if examples/known-strengths.csv 'P4|tree,p_j=1|Cmax' hard
