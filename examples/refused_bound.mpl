allstructs([S, {S = Sequence(Z, card = 1001)}], size = 1);
