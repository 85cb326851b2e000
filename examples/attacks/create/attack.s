# The host tries to create a second enclave that overlaps the first. Its region or its window is the region of the first
# enclave, or a larger range that contains it. Each of these could disclose the secret: an enclave can access its region
# and its window, and create measures the whole region.
attack: li    a6, 1
        li    a0, 0x80020000            # the same region
        li    a1, 4096
        ecall
        li    a0, 0x80020000            # 128 KiB that contain it
        li    a1, 0x20000
        ecall
        li    a0, 0x80030000            # another region, with a window on the first region
        li    a1, 4096
        li    a2, 0x80020000
        li    a3, 4096
        li    a4, 0x80030000
        ecall
        li    a0, 0x80030000            # another region, with a larger window around the first region
        li    a1, 4096
        li    a3, 0x10000
        ecall
end:    jal   zero, end
