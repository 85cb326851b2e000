# An enclave that leaks its secret by a branch, by its window and by its exit value. The host copies this page into the
# region, creates an enclave there, and runs it. The secret is the word at 80020800.
          jal  x0, host
enclave:  auipc x5, 0
          lw   x6, 2044(x5)
          beq  x6, x0, told
          addi x7, x7, 1
told:     sw   x6, 0(x12)
          addi x10, x6, 0
          addi x16, x0, 7
          lui  x17, 42069
          addi x17, x17, -445
          ecall
host:     lui  x5, 0x80010
          lui  x6, 0x80020
          addi x7, x0, 1024
copy:     lw   x8, 0(x5)
          sw   x8, 0(x6)
          addi x5, x5, 4
          addi x6, x6, 4
          addi x7, x7, -1
          bne  x7, x0, copy
          lui  x10, 0x80020
          lui  x11, 1
          lui  x12, 0x80030
          lui  x13, 1
          addi x14, x10, 4
          addi x16, x0, 1
          lui  x17, 42069
          addi x17, x17, -445
          ecall
          addi x16, x0, 3
          addi x10, x11, 0
          ecall
again:    addi x5, x0, 2
          bne  x10, x5, halt
          addi x16, x0, 4
          addi x10, x0, 0
          ecall
          jal  x0, again
halt:     jal  x0, halt
