# The entry code of the hosts of both harts, in mode S, with the hart's number in a0. A trap halts the hart.
        .section .text.start, "ax"
        .globl  _start
_start: la      sp, host_stack_top
        slli    t0, a0, 12
        sub     sp, sp, t0      # 4096 bytes each
        la      t0, halt
        csrw    stvec, t0
        call    main
        .balign 4
halt:   j       halt
