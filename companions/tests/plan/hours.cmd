plan --instance orders.txt --time-unit 15min --jobs < late.report
plan --time-unit 1h < thirds.report
