# Johnson's two groups and their order, in LaTeX; an operation that takes no time has no piece.
print-sheet examples/flow-shop.txt --solution --latex
