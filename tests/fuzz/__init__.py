"""Fuzzers of the program: random inputs with the expected output of the reference models."""
