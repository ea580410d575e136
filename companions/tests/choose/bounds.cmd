# No bound is above the least cost, on small instances of classes without a solver and of cut ones, and verify accepts all.
tries="$(dirname "$(command -v choose)")/tests/try-bounds"
python3 "$tries" --draws 14 --verify 'F3||Cmax' 'J||Cmax' 'R||Cmax' 'P||Lmax' 'P||sumwC' '1||sumT' '1|r|sumwT' 'Q|prec|sumwU' > tried.txt
sed -n 's/.*instances, \(none[^;]*\); the greatest[^;]*\(; [0-9][^;]*\)*/\1/p' tried.txt
python3 "$tries" --draws 10 --cut 'P|pmtn|Lmax' 'P|pmtn,r|Lmax' '1|pmtn,r|sumC' 'R|pmtn|sumwC' 'J2|pmtn|Cmax' > tried.txt
sed -n 's/.*instances, \(none[^;]*\); the greatest[^;]*\(; [0-9][^;]*\)*/\1/p' tried.txt
