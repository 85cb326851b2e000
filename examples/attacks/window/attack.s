# The host creates a second enclave of its own, with a window that ends where the region of the first begins. The second
# enclave tries to load across this boundary.
attack: li    t0, 0x80010124            # copy the code of the second enclave
        li    t1, 0x80030000            # to its region
        li    t2, 12
more:   lw    t3, 0(t0)
        sw    t3, 0(t1)
        addi  t0, t0, 4
        addi  t1, t1, 4
        addi  t2, t2, -1
        bne   t2, zero, more
        li    a6, 1
        li    a0, 0x80030000
        li    a1, 4096
        li    a2, 0x8001f000            # the window: the page before the first enclave's region
        li    a3, 4096
        li    a4, 0x80030000
        ecall
        li    a6, 3                     # run it
        li    a0, 1
        ecall
        li    a6, 4                     # resume it
        li    a0, 1
        ecall
end:    jal   zero, end

# The second enclave. a2 is the base of its window, a3 the size.
other:  auipc t0, 0
        addi  t0, t0, 24                # its trap handler: the code from csrrs on
        csrrw zero, stvec, t0
        add   t1, a2, a3                # the end of the window
        lw    t2, -4(t1)                # the window's last word: succeeds
        lw    t2, -2(t1)                # two bytes of the window, and two of the region
        csrrs a0, scause, zero          # stop with the cause as the value
        li    a7, 0x0a454e43
        li    a6, 6
        ecall
        lw    t2, 0(t1)                 # after a resume: only the region
