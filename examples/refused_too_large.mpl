# the first number above 2^128 - 1 is told, and the size at which it comes
count([S, {S = Prod(A, A), A = Sequence(Union(a, b, c)), a = Atom, b = Atom, c = Atom}], size = 81);
allstructs([S, {S = Prod(Z, Z, Sequence(Z, card <= 40))}, labelled], size = 40);
