# The ways to write 5 as a sum, whatever the order of the summands. A summand is a row of atoms.
allstructs([P, {P = Set(Sequence(Z, card >= 1))}, unlabelled], size = 5);
