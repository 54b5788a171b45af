allstructs([S, {S = Prod(A, A), A = Z,
                A = Epsilon}, unlabelled], size = 2);
