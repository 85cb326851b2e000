# The entry code: sets the stack pointer, calls main, and executes an ebreak when main has returned.
        .section .text.start, "ax"
        .globl  _start
_start: la      sp, stack_top
        call    main
        ebreak
stay:   j       stay
