atlas --part 30 --output page.html
atlas --compare page.html --classes 10
grep -c '"asked":30' page.html
grep -oE '(src|href)="?https?:' page.html
test "$(wc -c < page.html)" -lt 3000000 && echo under 3 MB
