# Two enclaves with the same code, in regions of 8 KiB and 16 KiB. Each sets stvec and sscratch, adds a number from its window, stops, adds
# again, runs a part in U, measures itself into its window, and exits. It has data at the end of its region.
        .equ    KEY, 0x0a454e43
        .equ    MEASURE, 5
        .equ    STOP, 6
        .equ    EXIT, 7
        .equ    SPP, 0x100

# call NUMBER: a call of the monitor with a0 and a1.
        .macro  call_monitor number
        li      a6, \number
        li      a7, KEY
        ecall
        .endm

# enclave SECTION ENTRY END: the code of one enclave; END is the last word of its region. On entry a2 is the base of its window.
        .macro  enclave section, entry, end
        .section \section, "ax"
        .globl  \entry
\entry:
        la      sp, \end
        la      t0, 9f
        csrw    stvec, t0
        csrw    sscratch, sp
        mv      s0, a2                  # the window
        lw      s1, 0(s0)
        lw      t0, 0(sp)               # the secret at the end of the region
        add     s1, s1, t0
        sw      s1, 4(s0)
        sw      s1, -4(sp)
        li      s2, 20
1:      addi    s2, s2, -1              # some steps, so that a timer interrupt may come
        bnez    s2, 1b
        mv      a0, s1
        call_monitor STOP
        lw      t0, 0(s0)
        add     s1, s1, t0
        ebreak                          # redirected to 9f
        lw      t0, 0(zero)             # redirected too
        la      t0, 2f
        csrw    sepc, t0
        csrw    sstatus, zero
        sret
2:      li      s3, 10                  # in U
3:      addi    s3, s3, -1
        bnez    s3, 3b
        lw      t0, 0(s0)
        sw      t0, 8(s0)
        ecall                           # redirected to 9f, which returns in S
        mv      a0, zero
        addi    a1, s0, 32
        call_monitor MEASURE
        mv      a1, s0
        addi    a1, a1, 2047
        addi    a1, a1, 2047            # crosses the end of the window
        call_monitor MEASURE
        mv      a0, s1
        call_monitor EXIT
        .balign 4
9:      csrr    t0, sepc
        addi    t0, t0, 4
        csrw    sepc, t0
        csrr    t0, scause
        addi    t0, t0, -8              # an ecall from U
        bnez    t0, 4f
        li      t0, SPP
        csrs    sstatus, t0
4:      sret
        .endm

        enclave .text.start, enclave_entry, first_end
        enclave .text.second, second_entry, second_end

        .section .data.first, "aw"
        .globl  first_end
        .word   0
first_end:
        .word   0x5ec0e701
        .section .data.second, "aw"
        .globl  second_end
        .word   0
second_end:
        .word   0x5ec0e702
