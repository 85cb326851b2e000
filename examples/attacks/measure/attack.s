# The host tries to make the monitor write to the region: a measurement of 32 bytes with the last byte, the first byte
# or all bytes in the region. The measurement itself is not secret. The monitor writes it only where the host may store.
attack: li    a6, 5                     # measure slot 0
        li    a0, 0
        li    a1, 0x8001ffe1            # its last byte is the region's first byte
        ecall
        li    a0, 0
        li    a1, 0x80020fff            # its first byte is the region's last byte
        ecall
        li    a0, 0
        li    a1, 0x80020100            # over the secret
        ecall
        li    a0, 0
        li    a1, 0x8001ffe0            # it ends right before the region: succeeds
        ecall
end:    jal   zero, end
