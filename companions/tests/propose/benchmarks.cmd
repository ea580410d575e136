# Texts of benchmarks.
propose --jssp ft06.txt | sed '/^schedule/,$d'
propose --taillard taillard.txt | sed '/^schedule/,$d' | grep cost
printf '2 2\n0 3 1 2\n0 1 2 4\n' | propose --jssp
printf '2 2\n0 3 1 2\n' | propose --jssp
printf '2 2\n0 3 1 2 1\n0 3 1 2\n' | propose --jssp
propose --taillard ft06.txt
propose --jssp ft06.txt --number 2
propose --jssp --taillard ft06.txt
printf 'Nb of jobs, Nb of Machines, Time seed, Machine seed, Upper bound, Lower bound\n 2 2 1 2 7 7\nTimes\n 3 2\n 4 1\nMachines\n 1 2\n 2 1\n' | propose --taillard | sed '/^schedule/,$d'
