allstructs([T, {T = Union(Z, Prod(Z, Z, E)), E = Epsilon}, unlabelled], size = 2);
