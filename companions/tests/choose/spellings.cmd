# One class in the spellings of the literature.
for name in '1|pmtn,r|sumC' '1 / rj; pmtn / SumCi' '1 | pmtn; r_i | \sum C_i' '$1\mid r_j,pmtn\mid\sum C_j$' '1|prmp, r_j|Σ C_j'; do
    choose "$name" | head -n 1
done
for name in 'Pm|prec,p_j=1|C_{\max}' 'Q | p_{ij}=p | \sum w_j U_j' 'J2|m_j\le 2|C_max' 'F2||T_max' 'R||sum w_jT_j' 'O|pmtn|makespan'; do
    choose "$name" | head -n 1
done
for name in '1||h_{\max}' '1||h_max' 'P||mean flow time' '1||number of late jobs' '1|r_j|total weighted tardiness'; do
    choose "$name" | head -n 1
done
