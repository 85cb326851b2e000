# The host of hart 1 makes monitor calls about the enclave on hart 0. It measures it, and tries to get the result
# written over it. It tries to create enclaves over it and over its window, and to destroy, run and resume it.
attack: li    a7, 0x0a454e43
        li    a6, 5                     # measure slot 0, to memory of the host: succeeds
        li    a0, 0
        li    a1, 0x80040000
        ecall
        li    a0, 0
        li    a1, 0x80020100            # over the number of the enclave
        ecall
        li    a0, 0
        li    a1, 0x8001ffe1            # its last byte is the region's first byte
        ecall
        li    a6, 1                     # create with the same region
        li    a0, 0x80020000
        li    a1, 4096
        li    a2, 0
        li    a3, 0
        li    a4, 0x80020000
        ecall
        li    a0, 0x80020000            # 128 KiB that contain it
        li    a1, 0x20000
        ecall
        li    a0, 0x80040000            # another region, with a window on the enclave's region
        li    a1, 4096
        li    a2, 0x80020000
        li    a3, 4096
        li    a4, 0x80040000
        ecall
        li    a0, 0x80030000            # a region on the enclave's window
        li    a1, 4096
        li    a3, 0
        li    a4, 0x80030000
        ecall
        li    a6, 2                     # destroy
        li    a0, 0
        ecall
        li    a6, 3                     # run
        li    a0, 0
        ecall
        li    a6, 4                     # resume
        li    a0, 0
        ecall
end:    jal   zero, end
