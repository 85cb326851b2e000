# The code of a cell, which the host copies into it. On entry a0 is the mailbox. The last word of the cell is its secret. The cell has secrets in
# registers, makes exceptions, runs a part in U, yields twice, and finishes.
        .equ    YIELD, 5
        .equ    FINISH, 6
        .section .rodata
        .globl  code_begin, code_end
        .balign 4
code_begin:
        mv      s0, a0
        auipc   s1, 2                   # the end of the cell, after an instruction
        lw      s2, -8(s1)              # the secret
        la      t0, handler             # relative to pc
        csrw    stvec, t0
        csrw    sscratch, s2
        xori    s3, s2, 0x5a
        lw      s4, 0(s0)
        addi    s4, s4, 1
        sw      s4, 0(s0)
        li      s5, 20
1:      addi    s5, s5, -1              # some steps, so that a timer interrupt may come
        bnez    s5, 1b
        mv      a0, zero
        li      a7, YIELD
        ecall
        ebreak                          # redirected to the handler
        lw      t0, 0(zero)             # redirected too
        li      t0, 0x80010000
        lw      t1, 0(t0)               # memory of the host
        sw      t1, 0(t0)
        li      a7, 3                   # close, which is a call of the host
        ecall
        la      t0, 2f
        csrw    sepc, t0
        csrw    sstatus, zero
        sret
2:      li      s6, 10                  # in U
3:      addi    s6, s6, -1
        bnez    s6, 3b
        ecall                           # redirected to the handler, which returns in S
        csrr    s7, sscratch
        sub     s7, s7, s2
        sw      s7, 4(s0)               # 0
        mv      a0, zero
        li      a7, YIELD
        ecall
        mv      a0, zero
        li      a7, FINISH
        ecall
        .balign 4
handler:
        csrr    t0, sepc
        addi    t0, t0, 4
        csrw    sepc, t0
        csrr    t0, scause
        addi    t0, t0, -8              # an ecall from U
        bnez    t0, 4f
        li      t0, 0x100
        csrs    sstatus, t0
4:      sret
code_end:
