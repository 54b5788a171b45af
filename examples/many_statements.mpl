allstructs([S, {S = Prod(Z, Z)}], size = 2);
count([S, {S = Prod(Z, Z)}], size = 2):
count([S, {S = Prod(Z, A)}], size = 2);
; : count([W, {W = Sequence(Union(a, b)), a = Atom, b = Atom}], size = 10);
