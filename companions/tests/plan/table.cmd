plan --instance orders.txt < orders.report
