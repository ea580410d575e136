plan --instance shop.txt --csv < shop.report
