"""Checks of monitors that run in mode M on the bare bench."""
