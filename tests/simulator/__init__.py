"""A second, plain account of what `pced script` answers, and scripts drawn at random to compare the program with it."""
