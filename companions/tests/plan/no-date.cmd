plan --time-unit 15min --start 'Monday' < orders.report
