grade tree.txt trees
