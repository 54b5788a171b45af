# The words of three letters over a and b in which no a stands beside another. V is what may follow an a.
allstructs([W, {W = Union(e, Prod(a, V), Prod(b, W)), V = Union(e, Prod(b, W)),
                e = Epsilon, a = Atom, b = Atom}, unlabelled], size = 3);
