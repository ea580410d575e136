cite 'P||Cmaxx'
