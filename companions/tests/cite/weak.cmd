cite 'Q2||sumwU'
