plan orders.report --instance orders.report
