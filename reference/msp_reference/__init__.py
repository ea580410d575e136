"""An independent implementation of `msp`, written from its requirements without a look at the program."""
