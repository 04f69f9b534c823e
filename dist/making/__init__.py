"""Makes the man page and the completions of the shells from the program's help."""
