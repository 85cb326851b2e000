# A test as an enclave. The host creates an enclave from the region without a window, runs it, and ends with its value. The enclave sets its stack
# and its trap vector, calls main, and exits with the status.
        .section .host, "ax"
        .globl  _start
_start: li      a7, 0x0a454e43
        li      a6, 1           # create
        la      a0, region_base
        la      a1, region_size
        li      a2, 0
        li      a3, 0
        la      a4, enclave_entry
        ecall
        bnez    a0, refused
        mv      a0, a1
        li      a6, 3           # run
        ecall
        bnez    a0, refused
        mv      a0, a1
        .globl  test_ended
test_ended:
        j       test_ended
refused:
        li      a0, 97
        j       test_ended

        .section .text.start, "ax"
enclave_entry:
        la      sp, stack_top
        la      t0, trapped
        csrw    stvec, t0
        li      a0, 0
        li      a1, 0
        call    main
# Ends the test with the status in a0.
        .globl  finish
finish:
        li      a7, 0x0a454e43
        li      a6, 7           # exit
        ecall
        .balign 4
trapped:
        li      a0, 98
        j       finish
