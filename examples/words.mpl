# The words of three letters over a and b.
allstructs([W, {W = Prod(L, L, L), L = Union(a, b), a = Atom, b = Atom}, unlabelled], size = 3);
