# A minimal monitor in mode M. One PMP entry permits all memory to U. main runs in U, and the ecall after it ends the run.
        .section .text.start, "ax"
        .globl  _start
_start: la      sp, host_stack_top
        la      t0, ended
        csrw    mtvec, t0
        li      t0, -1
        csrw    pmpaddr0, t0
        li      t0, 31
        csrw    pmpcfg0, t0
        la      t0, user
        csrw    mepc, t0
        li      t0, 0x1800
        csrc    mstatus, t0
        mret
user:   call    main
        ecall
        .balign 4
ended:  j       ended
