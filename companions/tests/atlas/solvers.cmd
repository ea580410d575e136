# The chains to the solvers come without make-instance.
here=$(dirname "$(command -v atlas)")
mkdir -p clone/companions
cp -r "$here"/atlas "$here"/atlas-page.html "$here"/msp_tools clone/companions
ln -s "$here/../docs" "$here/../examples" clone
clone/companions/atlas --part 30 --output page.html
grep -o '"0":\["lawler",5,\[\[[0-9]' page.html
