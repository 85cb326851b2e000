# Adds the numbers from 100 down to 1 in a subroutine, stores the sum, and traps to a handler.
start:  li    t0, 0x8000003c      # the address of the handler, 60 bytes after start
        csrrw zero, mtvec, t0
        li    a0, 100
        jal   ra, sum
        li    t1, 0x80001000      # one lui, because the low twelve bits are 0
        sw    a0, 0(t1)
        ecall                     # cause 11: ecall from mode M

# Takes the largest number in a0, and returns the sum in a0.
sum:    addi  a1, a0, 0           # the next number to add
        li    a0, 0
next:   beq   a1, zero, done
        add   a0, a0, a1
        addi  a1, a1, -1
        jal   zero, next
done:   ret

handler:
        csrrs a2, mcause, zero
        csrrs a3, mepc, zero
stay:   jal   zero, stay
