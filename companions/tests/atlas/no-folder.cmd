atlas --part 3 --output nowhere/page.html
