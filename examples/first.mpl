allstructs([S, {S = Prod(A, Union(Z, Z)), A = Union(Z, Prod(Z, Z))}, unlabelled], size = 3);
