# A class with a solver has its plan.
printf 'msp 1\nclass 1||sumU\njob a p=3 d=3\njob b p=2 d=4\njob c p=2 d=5\nend\n' | propose
