choose --environment P --criterion Cmax --times long
