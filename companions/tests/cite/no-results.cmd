cite --results examples/two-crews.txt '1||sumC'
