choose --environment job-shop --criterion makespan
