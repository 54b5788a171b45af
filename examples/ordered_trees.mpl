allstructs([T, {T = Prod(Z, Sequence(T))}], size = 4);
