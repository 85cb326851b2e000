"""Tests of the built program through its command line."""
