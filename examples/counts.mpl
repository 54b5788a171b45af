# binary trees with 60 leaves
count([B, {B = Union(Z, Prod(B, B))}], size = 60);
# ordered trees with 40 nodes
count([T, {T = Prod(Z, Sequence(T))}], size = 40);
# labelled rows of single atoms and pairs
count([S, {S = Sequence(Union(Z, Prod(Z, Z)))}, labelled], size = 20);
# three rows that share 30 labels
count([P, {P = Prod(Sequence(Z), Sequence(Z), Sequence(Z))}, labelled], size = 30);
