allstructs([S, {S = Union(Z, Z)}, unlabelled], size = 1);
