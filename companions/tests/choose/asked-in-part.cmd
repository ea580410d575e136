printf 'P2\nno\n' | choose
