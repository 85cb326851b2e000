# An enclave with each kind of finding in its window. It reads a word twice, writes one and reads that again, writes its
# secret for a time, and leaves a word for its second activation. The host copies this page into the region, creates an
# enclave there, runs it, writes one of the words that it left, and resumes it. The secret is the word at 80020800. It
# is also used as an index.
          jal  x0, host
enclave:  auipc x5, 0                   # 80020004
          lw   x6, 0(x12)               # reads, 80020008
          lw   x7, 0(x12)               # reads again, 8002000c
          sw   x6, 4(x12)               # writes, 80020010
          lw   x7, 4(x12)               # its own word: no input, 80020014
          lbu  x8, 8(x12)               # reads a byte, 80020018
          lw   x9, 2044(x5)             # the secret, 8002001c
          andi x18, x9, 60              # 80020020
          add  x18, x5, x18             # 80020024
          lw   x19, 0(x18)              # at an address that it decides, 80020028
          sw   x0, 1024(x18)            # and stores at such a one, 8002002c
          divu x20, x6, x9              # 80020030
          sw   x9, 16(x12)              # writes it, 80020034
          sw   x0, 16(x12)              # and clears it, 80020038
          sw   x6, 20(x12)              # 8002003c
          addi x10, x0, 0               # 80020040
          addi x16, x0, 6               # 80020044
          lui  x17, 42069
          addi x17, x17, -445
          ecall                         # stop, 80020050
          sw   x6, 12(x12)              # writes in its second activation, 80020054
          addi x16, x0, 7
          ecall                         # exit, 8002005c
host:     lui  x5, 0x80010
          lui  x6, 0x80020
          addi x7, x0, 1024
copy:     lw   x8, 0(x5)
          sw   x8, 0(x6)
          addi x5, x5, 4
          addi x6, x6, 4
          addi x7, x7, -1
          bne  x7, x0, copy
          lui  x10, 0x80020
          lui  x11, 1
          lui  x12, 0x80030
          lui  x13, 1
          addi x14, x10, 4
          addi x16, x0, 1
          lui  x17, 42069
          addi x17, x17, -445
          ecall
          lui  x20, 0x80030
          addi x21, x0, 7
          sw   x21, 0(x20)
          sw   x21, 8(x20)
          addi x16, x0, 3
          addi x10, x11, 0
          ecall
          sw   x0, 4(x20)               # of what was left
          addi x16, x0, 4
          addi x10, x0, 0
          ecall
halt:     jal  x0, halt
