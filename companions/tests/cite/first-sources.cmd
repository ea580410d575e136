# Classes whose first source is known with certainty have it as the entry that decides.
for class in '1||Lmax' '1|r,p=p|Lmax' '1|pmtn,r|Lmax' 'P|pmtn|sumC' 'P|pmtn|Lmax' 'P|pmtn,r|Lmax' 'R||sumC' 'Q||sumC' 'J2||Cmax'; do
    cite "$class" | grep -E '^(this decides|  [A-Z]\. )' | head -2
done
