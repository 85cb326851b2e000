# The start of the host in mode S: it sets its stack and its trap handler, calls main, and halts.
        .section .text.start, "ax"
        .globl  _start
_start: la      sp, host_stack_top
        la      t0, trapped
        csrw    stvec, t0
        call    main
halt:   j       halt

# Stores cause and value of a trap, and continues after the instruction. After a fetch access fault it continues at the return address of
# the call that led there. Overwrites t0 and t1.
        .balign 4
trapped:
        la      t1, trap
        csrr    t0, scause
        sw      t0, 0(t1)
        csrr    t0, stval
        sw      t0, 4(t1)
        csrr    t0, sepc
        addi    t0, t0, 4
        lw      t1, 0(t1)
        addi    t1, t1, -1      # 1 is a fetch access fault
        bnez    t1, back
        mv      t0, ra
back:   csrw    sepc, t0
        sret

        .comm   trap, 8, 4      # cause and value of the last trap
