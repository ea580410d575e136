reduces 'P|outtree,p=1|Cmax' 'P|intree,p=1|Cmax' --both
