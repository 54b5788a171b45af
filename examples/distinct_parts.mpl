# The ways to write 6 as a sum of different summands.
allstructs([P, {P = PowerSet(Part), Part = Sequence(Z, card >= 1)}, unlabelled], size = 6);
