printf 'P2\nno\nnone\nno\nany\nCmax\n' | choose
