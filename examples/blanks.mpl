# Blanks and comments stand between tokens, and before and after a statement.

	allstructs(
  [ S,                        # the symbol of the class
    { S = Prod(A, Union(Z, Z))
    , A = Union(Z,Prod(Z,Z))  # a ; in a comment ends nothing
    },
    unlabelled ],
  size=0003
) ;   # and nothing more
