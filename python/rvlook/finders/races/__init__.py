"""`races`: the search of all orders of two harts, and of the timer, by partial-order reduction."""
