"""Shared code of the tests: hostile inputs, packets of gdb, fuzzing."""
