# The columns of other machines, in the field's words; names and titles with signs that Markdown and LaTeX read.
for name in 'J2|prec,r|sumwT' 'Q|p=p|Lmax' 'R2|pmtn|Cmax' 'O3||Cmax' 'J|n<=2,p=1|Cmax' 'P|outtree,pmtn|sumC'; do
    make-instance "$name" 2 3 --machines 3 > sheet.txt 2> /dev/null || make-instance "$name" 2 3 > sheet.txt
    print-sheet sheet.txt
done
printf 'msp 1\nclass 1||sumC\njob _a_ p=4\njob -b.1 p=2\nend\n' > names.txt
print-sheet names.txt --title 'Jobs & co: 100% $C_j$ | {a}' --latex
print-sheet names.txt --title 'Jobs & co: 100% $C_j$ | {a}'
