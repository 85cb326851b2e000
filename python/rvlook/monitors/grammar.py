"""The grammar of a file of ranges, for the help text of `guard`."""
GRAMMAR = "\n".join((
    "lines of RANGES, in which # begins a comment:",
    "  OWNER [RIGHTS] FIRST-LAST [while CONDITION...]",
    "  shared OWNER... [RIGHTS] FIRST-LAST [while CONDITION...]",
    "  table NAME COUNT PLACE STRIDE region BASE SIZE [window BASE SIZE] [while CONDITION...]",
    "  hands REGISTER...",
    "  once OWNER...",
    "  secret PLACE SIZE",
    "",
    "  OWNER       monitor, host, or a name for an enclave; NAME0, NAME1, ... for the elements of a table",
    "  RIGHTS      three letters, such as rw- (default: rwx)",
    "  FIRST, LAST hexadecimal numbers; also STRIDE, BASE and SIZE; the last two are offsets in an element",
    "  COUNT       a decimal number of elements",
    "  PLACE       SYMBOL, SYMBOL+OFFSET or an address",
    "  CONDITION   PLACE=VALUE, PLACE!=VALUE, PLACE<VALUE or PLACE>=VALUE, of the word there",
    "  or          calls=N, calls!=N, calls<N or calls>=N, of the number of ecalls of the host from S, in decimal",
    "  In a table, PLACE of a condition is an offset in the element."))
