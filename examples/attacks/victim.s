# The common first part of the other attacks. The host creates and runs an enclave, which stores a secret in its region
# and registers, and stops. The folder's attack.s follows this file, and begins at the label attack.
        jal   zero, host

# The trap handler of the host puts the cause into s2 and the address into s3. After a failed load or store it returns
# to the next instruction. After a failed fetch it returns to the address in t6, the link register of the jump.
trapped:                                # 80010004
        csrrs s2, scause, zero
        csrrs s3, stval, zero
        addi  s4, s2, -1
        beq   s4, zero, back            # cause 1: a fetch
        csrrs t6, sepc, zero
        addi  t6, t6, 4
back:   csrrw zero, sepc, t6
        sret

# The enclave, which the host copies to the region. a0 is the base of the region.
enclave:                                # 80010024
        lui   s1, 0x5ec0d               # the secret
        sw    s1, 256(a0)
        csrrw zero, sscratch, s1
        li    a7, 0x0a454e43
        li    a6, 6                     # stop
        li    a0, 0
        ecall
        jal   zero, -4                  # after a resume it stops again

host:   li    t0, 0x80010004
        csrrw zero, stvec, t0
        li    t0, 0x80010024            # copy the nine words of the enclave
        li    t1, 0x80020000            # to the region
        li    t2, 9
copy:   lw    t3, 0(t0)
        sw    t3, 0(t1)
        addi  t0, t0, 4
        addi  t1, t1, 4
        addi  t2, t2, -1
        bne   t2, zero, copy
        li    a7, 0x0a454e43
        li    a6, 1                     # create: a region of 4096 bytes, without a window
        li    a0, 0x80020000
        li    a1, 4096
        li    a2, 0
        li    a3, 0
        li    a4, 0x80020000
        ecall
        li    a6, 3                     # run: returns when the enclave stops or the timer interrupts it
        li    a0, 0
        ecall
again:  li    t0, 2
        bne   a0, t0, attack
        li    a6, 4                     # interrupted by the timer: resume it
        li    a0, 0
        ecall
        jal   zero, again

