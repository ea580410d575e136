cite 'R2|r,p=1|sumwU'
