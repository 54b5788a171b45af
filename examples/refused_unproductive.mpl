# T never ends, though S does not use it.
allstructs([S, {S = Z, T = Prod(Z, T)}, unlabelled], size = 1);
