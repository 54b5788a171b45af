# The binary trees with five leaves.
allstructs([B, {B = Union(Z, Prod(B, B))}, unlabelled], size = 5);
