# A product goes by the size of its first component, then by that component, then by the others.
allstructs([P, {P = Prod(Q, Q), Q = Union(E, a, Prod(a, b)), E = Epsilon, a = Atom, b = Atom}, unlabelled], size = 2);
