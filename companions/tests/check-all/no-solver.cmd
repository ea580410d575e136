check-all lists '1||sumT' --scale 2
