plan --instance shop.txt < orders.report
