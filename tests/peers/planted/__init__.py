"""Errors that are planted in a copy of the crates, and the programs that have them."""
