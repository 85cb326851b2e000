"""Addresses that the memory map of the bench fixes."""
from __future__ import annotations

RAM_BASE = 0x80000000  # the first byte of RAM
MONITOR_END = 0x80010000  # the first byte after the range of the monitor
