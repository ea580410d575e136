plan missing.txt
