"""The trace of a run, step by step."""
