"""riscv-arch-test on the program, from a folder that has it."""
