# The permutations of three labels, each by its cycles.
allstructs([P, {P = Set(Cycle(Z))}, labelled], size = 3);
