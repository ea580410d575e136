cite --bibtex '1|prec,r|sumwT'; cite '1|pmtn|Lmax' --bibtex; cite 'Q|r,p=p|fmax' --bibtex
