"""The solvers of the solved classes, each by the rule that the requirements give."""
