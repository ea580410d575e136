to-schedule plan.csv < plan.csv
