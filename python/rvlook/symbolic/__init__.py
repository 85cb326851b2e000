"""The subcommand `verify`: explores every path of an enclave with expressions over what the host gives and over its secrets."""
