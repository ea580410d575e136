plan --time-unit 15 < orders.report
