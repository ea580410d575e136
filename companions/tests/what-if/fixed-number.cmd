printf 'class,verdict,source\nP||Cmax,hard,Karp 1972\n' > one.csv
what-if one.csv 'Pm||Cmax' hard | grep -v ' open hard$'
