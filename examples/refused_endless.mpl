# A can hold itself and grow no larger. S only uses it.
allstructs([S, {S = Prod(Z, A), A = Union(Z, A)}, unlabelled], size = 2);
