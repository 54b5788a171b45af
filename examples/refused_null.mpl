allstructs([S, {S = Prod(Z, L), L = Sequence(Union(Z, Epsilon), card = 0)}], size = 1);
