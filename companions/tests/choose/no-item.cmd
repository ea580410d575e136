choose 'P3|sp-graph|Cmax'
