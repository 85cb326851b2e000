"""GCC's execution tests on the program."""
