printf '\377\376j\0o\0b\0;\0p\0\n\0S\0\344\0g\0e\0;\0003\0\n\0' | from-csv '1||sumC' --encoding utf-16
