# The host of hart 1 tries to load from, store to and jump to the region, and to access memory across its boundaries. It
# also loads from and stores to the window, which is the host's own memory.
attack: li    t5, 0x80020100            # the number of the enclave
        lw    t4, 0(t5)
        lbu   t4, 3(t5)
        sw    zero, 0(t5)
        jalr  t6, -256(t5)              # its entry
        li    t5, 0x80020000            # across the lower boundary
        lw    t4, -2(t5)
        sw    t5, -1(t5)
        li    t5, 0x80021000            # the first word of the stack, then across the upper boundary
        sw    zero, -4(t5)
        lh    t4, -1(t5)
        sh    t5, -1(t5)
        li    t5, 0x80030000            # the window: succeeds
        lw    t4, 0(t5)
        sw    t5, 4(t5)
end:    jal   zero, end
