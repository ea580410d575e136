# A seed of more digits than Python reads is refused as every other one beyond the limit.
make-instance '1||Lmax' 3 "$(printf '%05000d' 0 | tr 0 9)"; echo "status $?"
make-instance '1||Lmax' "$(printf '%05000d' 0 | tr 0 9)" 1; echo "status $?"
