"""Builds the image of a folder of C and assembly sources: `examples/build`."""
