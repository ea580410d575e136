plan --by-job < orders.report
