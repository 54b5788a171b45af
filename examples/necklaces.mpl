# Necklaces of three labelled beads, of which each is of kind a or b.
allstructs([N, {N = Cycle(Union(a, b)), a = Atom, b = Atom}, labelled], size = 3);
