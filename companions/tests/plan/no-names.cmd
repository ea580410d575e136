plan --names orders.txt < orders.report
