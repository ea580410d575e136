exam 2 3 --solution --latex --title 'Scheduling, 2nd exam'
