"""The assembler and the disassembler of the program beside those of GNU and LLVM."""
