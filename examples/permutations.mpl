allstructs([P, {P = Sequence(Z)}, labelled], size = 3);
