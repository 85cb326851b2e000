# The host of hart 1 tries to get the region and the registers of the enclave on hart 0. It accesses the region and its
# boundaries, and makes monitor calls about the slot. The script then shows all state of hart 1.
attack: li    t5, 0x80020100            # the address of the secret
        lw    t4, 0(t5)
        lbu   t4, 3(t5)
        sw    zero, 0(t5)
        jalr  t6, 0(t5)                 # the trap of an illegal instruction could show the bytes
        li    t5, 0x80020000            # across the lower boundary
        lw    t4, -2(t5)
        li    t5, 0x80021000            # across the upper boundary
        lh    t4, -1(t5)
        li    a7, 0x0a454e43
        li    a6, 5                     # measure slot 0, to memory of the host: succeeds
        li    a0, 0
        li    a1, 0x80040000
        ecall
        li    a0, 0
        li    a1, 0x80020100            # over the secret
        ecall
        li    a6, 1                     # create with the same region, which would measure the secret
        li    a0, 0x80020000
        li    a1, 4096
        li    a2, 0
        li    a3, 0
        li    a4, 0x80020000
        ecall
        li    a6, 2                     # destroy
        li    a0, 0
        ecall
        li    a6, 3                     # run
        li    a0, 0
        ecall
        li    a6, 4                     # resume
        li    a0, 0
        ecall
end:    jal   zero, end
