to-schedule < plan.csv
