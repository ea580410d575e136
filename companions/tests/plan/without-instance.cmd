plan < shop.report
plan --csv --jobs < shop.report
