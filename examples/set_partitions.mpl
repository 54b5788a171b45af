# The ways to part four labels into blocks.
allstructs([P, {P = Set(Block), Block = Set(Z, card >= 1)}, labelled], size = 4);
