"""Of what the program and these commands were made: the sums of a tree's sources, and the stamps that hold them."""
