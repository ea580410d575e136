cite 'Pm|pmtn|\sum U_j'
cite --bibtex 'Pm||Cmax' | grep -E '^[%@]'
