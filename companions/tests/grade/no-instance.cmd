grade few/kim.txt few
