# The host of hart 1 destroys the enclave one step before hart 0 resumes it. It then loads from the address of the
# secret twice: one step before hart 0 creates a new enclave at the same address, and one step after.
attack: li    t5, 0x80020100            # the address of the secret
        li    t0, 1                     # status 1: the enclave has stopped on hart 0
        bne   a0, t0, second
        li    a6, 4                     # resume
        li    a0, 0
        ecall
        li    a6, 1                     # create at the same address
        li    a0, 0x80020000
        li    a1, 4096
        li    a2, 0
        li    a3, 0
        li    a4, 0x80020000
        ecall
        lw    t4, 0(t5)
end:    jal   zero, end

# The host of hart 1.
second: li    a6, 2                     # destroy
        li    a0, 0
        ecall
        lw    t4, 0(t5)
        lw    t4, 0(t5)
        li    a6, 5                     # measure the new enclave: does the result depend on the old bytes?
        li    a0, 0
        li    a1, 0x80040000
        ecall
done:   jal   zero, done
