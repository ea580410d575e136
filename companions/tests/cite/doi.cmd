# References of the best known papers have their DOI, each entry has a title or says that none is known, and no DOI stands twice.
cite --bibtex '1||Lmax' | grep -c doi
for class in 'P|pmtn|Lmax' 'R||sumC' '1|r,p=p|Lmax' 'J2||Cmax' 'P|prec,p=1|Cmax'; do
    cite --bibtex "$class" | grep -E '^@|  doi'
done
here=$(dirname "$(command -v cite)")
literature=$here/../docs/results/literature.bib
grep '^  doi' "$literature" | sort | uniq -d
test "$(grep -c '^@' "$literature")" = "$(grep -cE '^  title|title not known' "$literature")" && echo titles
