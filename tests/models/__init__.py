"""Reference models: they compute the expected output from the manual and the documentation, independently of the program."""
