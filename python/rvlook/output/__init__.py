"""Output: lines, objects, progress, findings."""
