plan < orders.txt
