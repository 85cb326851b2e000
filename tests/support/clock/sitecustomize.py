"""Python imports this module first if its folder is in PYTHONPATH."""
import processor_clock

processor_clock.install()
