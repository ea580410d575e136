printf 'msp 1\nclass 1||sumT\njob a p=1 d=1\nend\n' | msp solve | plan
