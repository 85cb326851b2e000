# Two hosts, one on each hart. The host of hart 0 creates and runs an enclave, again and again. The host of hart 1
# destroys slot 0, again and again. The schedule of the two harts decides which of two calls is first.
        li    a7, 0x0a454e43
        bne   a0, zero, second

# The host of hart 0.
first:  li    t0, 0x80020000            # the only instruction of the enclave: it loops
        li    t1, 0x0000006f            # jal zero, 0
        sw    t1, 0(t0)
        li    a6, 1                     # create: 4096 bytes without a window
        li    a0, 0x80020000
        li    a1, 4096
        li    a2, 0
        li    a3, 0
        li    a4, 0x80020000
        ecall
        li    a6, 3                     # run
        li    a0, 0
        ecall
        jal   zero, first

# The host of hart 1.
second: li    a6, 2                     # destroy
        li    a0, 0
        ecall
        jal   zero, second
