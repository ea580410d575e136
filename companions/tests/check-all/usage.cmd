check-all lists
