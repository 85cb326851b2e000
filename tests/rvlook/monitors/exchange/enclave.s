# Two enclaves in regions of 4 KiB. The keeper has a secret in its last word, and puts it into registers. The asker makes the call 0x20 with the
# address of that secret, which no monitor must answer, and stores the result to its window. Each one stops, continues and exits.
        .equ    KEY, 0x0a454e43
        .equ    STOP, 6
        .equ    EXIT, 7
        .equ    ASK, 0x20
        .equ    SECRET, 0x80014ffc

        .macro  call_monitor number
        li      a6, \number
        li      a7, KEY
        ecall
        .endm

        .section .text.keeper, "ax"
        .globl  keeper_entry
keeper_entry:
        li      s1, SECRET
        lw      s1, 0(s1)
        csrw    sscratch, s1
        li      a0, 0
        call_monitor STOP
        li      s1, 0
        csrw    sscratch, zero
        li      a0, 0
        call_monitor EXIT

        .section .text.start, "ax"
        .globl  enclave_entry
enclave_entry:
        mv      s0, a2                  # the window
        li      a0, SECRET
        li      a1, 0
        call_monitor ASK
        sw      a1, 0(s0)
        li      a0, 0
        call_monitor STOP
        li      a0, 0
        call_monitor EXIT

        .section .data.secret, "aw"
        .word   0x5ec0e701
