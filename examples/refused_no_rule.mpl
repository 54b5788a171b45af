allstructs([S, {S = Union(Z, T)}, unlabelled], size = 1);
