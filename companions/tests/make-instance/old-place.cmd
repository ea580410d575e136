# The program may stand where it stood, and a line says its word; what is typed behind that word goes before.
make-instance '1||sumC' 2 1 msp --nonzero
make-instance '1||sumC' 2 1 nothing --program msp --nonzero | grep -c '^job'
