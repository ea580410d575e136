reduces 'Pm||Cmax' 'P||Lmax' | grep reduces
reduces 'Pm||Cmax' 'Pm||Lmax' | grep reduces
reduces 'Pm||Cmax' 'Rm||Cmax' | grep reduces
reduces 'P||Cmax' 'Pm||Cmax'
echo "status $?"
