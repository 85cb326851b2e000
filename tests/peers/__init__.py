"""Comparisons of the program with tools that others wrote."""
