plan --instance orders.txt --csv --names names.csv < orders.report
plan --instance orders.txt --csv --jobs --names names.csv < orders.report
