# partitions of 200
count([P, {P = Set(Sequence(Z, card >= 1))}], size = 200);
# partitions of 200 into different summands
count([P, {P = PowerSet(Sequence(Z, card >= 1))}], size = 200);
# the ways to part 25 labels
count([P, {P = Set(Set(Z, card >= 1))}, labelled], size = 25);
# rooted trees with 60 nodes
count([T, {T = Prod(Z, Set(T))}], size = 60);
# necklaces of 20 labelled beads of two kinds
count([N, {N = Cycle(Union(a, b)), a = Atom, b = Atom}, labelled], size = 20);
# permutations of 30 labels without a cycle of one
count([D, {D = Set(Cycle(Z, card >= 2))}, labelled], size = 30);
