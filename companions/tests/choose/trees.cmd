cite 'P | tree, p_j=1 | L_max' | grep -E '^(name|is|known) '
choose --environment Pm --precedence tree --times unit --criterion Cmax | grep -E '^(name|is|known|easy|class|label|solver) '
