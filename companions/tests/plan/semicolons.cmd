plan --instance orders.txt --semicolons --scale 2 < late.report
plan --instance orders.txt --semicolons --jobs --scale 2 < late.report
