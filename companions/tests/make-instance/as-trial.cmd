for name in '1||sumU' 'P|r,p=1|sumwT' 'J2|n<=2|Cmax' 'Q|p=p|sumC' 'O|pmtn|Cmax' '1|pmtn,prec,r|fmax' 'R2||Lmax'; do
    make-instance "$name" 3 5
done
