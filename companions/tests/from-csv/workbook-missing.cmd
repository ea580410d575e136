# Without openpyxl it is said what to install; old workbooks and sheets of OpenDocument are refused in any case.
mkdir none && echo 'raise ImportError' > none/openpyxl.py
printf 'PK\003\004' > list.xlsx
PYTHONPATH=none from-csv '1||Lmax' list.xlsx; echo "status $?"
printf '\320\317\021\340old' | from-csv '1||Lmax'; echo "status $?"
printf 'PK\003\004..........................mimetypeapplication/vnd.oasis.opendocument.spreadsheet' | from-csv '1||Lmax'; echo "status $?"
printf 'job,p\na,1\n' | from-csv '1||sumC' --sheet one; echo "status $?"
