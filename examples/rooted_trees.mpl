# Rooted trees with five nodes, whatever the order of the branches.
allstructs([T, {T = Prod(Z, Set(T))}, unlabelled], size = 5);
