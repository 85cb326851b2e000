# M opens all memory to S for one instruction, and closes it again before it enters S.
        addi x1, x0, -1
        csrrw x0, pmpaddr0, x1
        addi x2, x0, 31
        csrrw x0, pmpcfg0, x2
        csrrw x0, pmpcfg0, x0
        lui x3, 0x1
        addi x3, x3, -2048
        csrrw x0, mstatus, x3
        auipc x4, 0x0
        addi x4, x4, 16
        csrrw x0, mepc, x4
        mret
