# The host destroys the enclave and reuses its memory, first as ordinary memory, then as the region of a new enclave at
# the same address.
attack: li    a6, 2                     # destroy slot 0
        li    a0, 0
        ecall
        li    t5, 0x80020100
        lw    t4, 0(t5)                 # the address of the secret: succeeds
        li    a6, 1                     # create an enclave there again
        li    a0, 0x80020000
        li    a1, 4096
        li    a2, 0
        li    a3, 0
        li    a4, 0x80020000
        ecall
        li    a6, 5                     # measure it: does the result depend on the old bytes?
        li    a0, 0
        li    a1, 0x80040000
        ecall
        li    a6, 2
        li    a0, 0
        ecall
end:    jal   zero, end
