# The host jumps into the region: to the entry, to the middle of the code, to the secret, and to the last word. If the
# fetch of the secret were permitted, the trap of an illegal instruction could show its bytes.
attack: li    t5, 0x80020000
        jalr  t6, 0(t5)
        jalr  t6, 24(t5)
        jalr  t6, 256(t5)
        li    t5, 0x80021000
        jalr  t6, -4(t5)                # the region's last word
end:    jal   zero, end
