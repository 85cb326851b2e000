# The word at 80000100 is the secret: bit 0 decides a branch, bits 2 and 3 an address, and the rest is stored.
        auipc x1, 0x0
        lw x2, 256(x1)
        andi x3, x2, 1
        beq x3, x0, 8
        addi x4, x0, 1
        andi x5, x2, 12
        add x6, x1, x5
        lw x7, 512(x6)
        sw x2, 768(x1)
        jal x0, 0
