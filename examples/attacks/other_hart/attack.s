# Both hosts look for the secret of an enclave that has stopped on hart 0. They access its region, ask the monitor to
# write there, and read a register that the enclave has used (sscratch).
attack: li    t5, 0x80020100            # the address of the secret
        lw    t4, 0(t5)
        sw    zero, 0(t5)
        jalr  t6, 0(t5)
        csrrs t0, sscratch, zero
        li    a6, 5                     # measure slot 0, over the secret
        li    a0, 0
        li    a1, 0x80020100
        ecall
        li    a0, 0                     # to memory of the host: succeeds
        li    a1, 0x80040000
        ecall
end:    jal   zero, end
