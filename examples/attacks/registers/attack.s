# After the enclave has stopped, the host looks for the secret in the registers and in the CSRs of mode S. Then it runs
# a second enclave on the same hart, which does not get the secret either.
attack: csrrs t0, sscratch, zero
        csrrs t1, sepc, zero
        csrrs t2, scause, zero
        csrrs t3, stval, zero
        csrrs t4, sstatus, zero
        li    a6, 1                     # create a second enclave, without code
        li    a0, 0x80030000
        li    a1, 4096
        li    a2, 0
        li    a3, 0
        li    a4, 0x80030000
        ecall
        li    a6, 3
        li    a0, 1
        ecall
end:    jal   zero, end
