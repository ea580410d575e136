# What is known of a fixed number of machines stands at two and at three; the number in the input is another problem.
choose 'P_m | p_j=1 | \sum C_j' | grep -E '^(name|is|known|easy for|class|label|solver) '
for name in 'Pm|pmtn|sumU' 'Pm || C_max' 'Qm|chains,p=1|Cmax' 'Om|p=1|sumwU'; do
    cite "$name" | grep -E '^(name|is|known|easy for) '
done
