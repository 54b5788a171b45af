allstructs([C, {C = Cycle(Sequence(Z, card >= 1))}, unlabelled], size = 4);
