from-csv '1||Lmax' --start 2026-03-02 < bakery.csv
