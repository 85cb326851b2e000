# The host makes accesses that are partly in its own memory and partly in the region. A simulator that checks only the
# first byte of an access would permit those that begin in the host's memory.
attack: li    t5, 0x80020000            # the region's first byte
        lw    t4, -4(t5)                # the host's last word before the region: succeeds
        lw    t4, -1(t5)
        lw    t4, -2(t5)
        lw    t4, -3(t5)
        lh    t4, -1(t5)
        sw    t4, -2(t5)
        li    t5, 0x80021000            # the first byte after the region
        lw    t4, -1(t5)
        lw    t4, -3(t5)
        sh    t4, -1(t5)
        lw    t4, 0(t5)                 # succeeds
end:    jal   zero, end
