make-instance --help | head -n 3
