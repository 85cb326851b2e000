# A livelock. Each hart sets its own flag, and clears it again if the flag of the other hart is set. A counter counts
# the entries. The harts may give way to each other forever.
        lui  x8, 0x80011
        slli x5, x10, 2
        add  x9, x8, x5         # its own flag
        xori x11, x10, 1
        slli x5, x11, 2
        add  x18, x8, x5        # the other's
        addi x6, x0, 1
again:  sw   x6, 0(x9)
        lw   x7, 0(x18)
        beq  x7, x0, enter
        sw   x0, 0(x9)
        jal  x0, again
enter:  lw   x28, 12(x8)
        addi x28, x28, 1
        sw   x28, 12(x8)
        sw   x0, 0(x9)
done:   jal  x0, done
