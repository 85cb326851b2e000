# The code of an enclave, which the host copies into a region. It stores to its window if there is one, stops, and exits.
        .section .rodata
        .globl  code_begin, code_end
        .balign 4
code_begin:
        beqz    a2, 1f
        sw      a1, 0(a2)
1:      li      a0, 0
        li      a6, 6
        li      a7, 0x0a454e43
        ecall
        li      a0, 0
        li      a6, 7
        ecall
code_end:
