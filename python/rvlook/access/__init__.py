"""Access rights and accesses: the access map, access counts, activations of enclaves, stack overflows."""
