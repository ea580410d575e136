check-all lists '1||Lmin'
