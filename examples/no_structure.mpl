allstructs([S, {S = Union(Prod(Z, Z), Prod(Z, Z, Z, Z))}, unlabelled], size = 3);
