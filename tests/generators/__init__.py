"""Generators of test cases. The expected output of each case comes from the reference models."""
