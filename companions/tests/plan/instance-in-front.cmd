cat orders.txt late.report | plan --names names.csv
