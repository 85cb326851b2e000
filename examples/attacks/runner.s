# The common first part of the attacks on a running enclave. The host of hart 0 creates and runs an enclave, which
# counts. The folder's attack.s follows this file. The host of hart 1 begins there, at the label attack.
        jal   zero, both

# The trap handler of both hosts puts the cause into s2 and the address into s3. After a failed load or store it returns
# to the next instruction. After a failed fetch it returns to the address in t6, the link register of the jump.
trapped:                                # 80010004
        csrrs s2, scause, zero
        csrrs s3, stval, zero
        addi  s4, s2, -1
        beq   s4, zero, back            # cause 1: a fetch
        csrrs t6, sepc, zero
        addi  t6, t6, 4
back:   csrrw zero, sepc, t6
        sret

# The enclave, which the host copies to the region. a0 is the base of the region, a1 its size, a2 the base of the
# window. It exits with 32, or with 0 if a word in the region or on the stack is not the one that it stored.
enclave:                                # 80010024
        add   sp, a0, a1                # the stack grows down from the end of the region
        li    s1, 0
count:  addi  s1, s1, 1
        sw    s1, 256(a0)               # store each number to the region,
        addi  sp, sp, -4
        sw    s1, 0(sp)                 # to the stack
        sw    s1, 0(a2)                 # and to the window
        lw    t0, 256(a0)
        lw    t1, 0(sp)
        bne   t0, s1, wrong
        bne   t1, s1, wrong
        li    t2, 32
        bne   s1, t2, count
        jal   zero, ended
wrong:  li    s1, 0
ended:  addi  a0, s1, 0
        li    a7, 0x0a454e43
        li    a6, 7                     # exit
        ecall

both:   li    t0, 0x80010004
        csrrw zero, stvec, t0
        bne   a0, zero, attack          # hart 1

host:   li    t0, 0x80010024            # copy the twenty words of the enclave
        li    t1, 0x80020000            # to the region
        li    t2, 20
copy:   lw    t3, 0(t0)
        sw    t3, 0(t1)
        addi  t0, t0, 4
        addi  t1, t1, 4
        addi  t2, t2, -1
        bne   t2, zero, copy
        li    a7, 0x0a454e43
        li    a6, 1                     # create: a region of 4096 bytes, and a window of 4096 bytes
        li    a0, 0x80020000
        li    a1, 4096
        li    a2, 0x80030000
        li    a3, 4096
        li    a4, 0x80020000
        ecall
        li    a6, 3                     # run: returns when the enclave exits or the timer interrupts it
        li    a0, 0
        ecall
again:  li    t0, 2
        beq   a0, t0, more              # interrupted by the timer: resume it
        li    t0, -8
        bne   a0, t0, host              # it has exited, or does not exist: start again
more:   li    a6, 4                     # resume; while it runs on the other hart, try again
        li    a0, 0
        ecall
        jal   zero, again

