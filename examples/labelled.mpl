allstructs([S, {S = Prod(Z, Z)}, labelled], size = 2);
