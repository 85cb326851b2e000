# A test as the host, in S: sets the stack and the trap vector, and calls main.
        .section .text.start, "ax"
        .globl  _start
_start: la      sp, stack_top
        la      t0, trapped
        csrw    stvec, t0
        li      a0, 0
        li      a1, 0
        call    main
# Ends the test with the status in a0.
        .globl  finish
finish:
        .globl  test_ended
test_ended:
        j       test_ended
        .balign 4
trapped:
        li      a0, 98
        j       finish
