plan --scale 0 < orders.report
