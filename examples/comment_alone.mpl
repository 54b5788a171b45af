# A script without a statement writes nothing.
