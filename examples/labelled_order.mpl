allstructs([S, {S = Prod(A, A), A = Union(Z, Prod(Z, Z))}, labelled], size = 3);
