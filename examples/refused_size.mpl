allstructs([S, {S = Z}, unlabelled], size = 1001);
