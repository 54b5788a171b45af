allstructs([S, {S = Sequence(Union(a, b), 3 >= card), a = Atom, b = Prod(Z, Z)}, unlabelled], size = 4);
