printf 'job,p,d\na,1,02.03.2026\n' | from-csv '1||Lmax' --start 2026-03-02 --time-unit 1h
