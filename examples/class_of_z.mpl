allstructs([Z, {Z = Atom}, labeled], size = 1);
