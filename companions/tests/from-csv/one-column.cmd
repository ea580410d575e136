# A list of one column has each line as a name, whatever marks stand in it, without quotes as spreadsheets save it.
printf 'job\nlackieren; grün\nschleifen; fein\n' | from-csv 'P|p=1|Cmax' --machines 2
printf 'Liste\nTeil\nTür, groß\nSäge, 2, "alt"\n' | from-csv '1|p=1|Cmax' --column job=Teil | grep '^job'
printf 'sep=;\njob\na;b\n"c;\nd"\n' | from-csv '1|p=1|Cmax' | grep '^job'
# Of several columns none may have more fields than the header.
printf 'job;p\na;1\nb; c;2\n' | from-csv '1||sumC'; echo "status $?"
