# A host that five times counts for about 200000 steps, creates an enclave and destroys it: a million steps in all.
          addi x20, x0, 5
again:    lui  x5, 24
          addi x5, x5, 1680
count:    addi x5, x5, -1
          bne  x5, x0, count
          lui  x10, 0x80020
          lui  x11, 1
          lui  x12, 0x80030
          lui  x13, 1
          addi x14, x10, 0
          addi x16, x0, 1
          lui  x17, 42069
          addi x17, x17, -445
          ecall
          addi x16, x0, 2
          addi x10, x11, 0
          ecall
          addi x20, x20, -1
          bne  x20, x0, again
halt:     jal  x0, halt
