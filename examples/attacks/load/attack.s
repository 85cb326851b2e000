# The host tries to load the secret (word, half word, byte) and to overwrite it, and tries both ends of the region.
attack: li    t5, 0x80020100            # the address of the secret
        lw    t4, 0(t5)
        lhu   t4, 0(t5)
        lbu   t4, 0(t5)
        sw    zero, 0(t5)
        li    t5, 0x80020000            # the region's first byte
        lb    t4, 0(t5)
        li    t5, 0x80020fff            # the region's last byte
        lb    t4, 0(t5)
        sb    zero, 0(t5)
end:    jal   zero, end
