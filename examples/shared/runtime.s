# The start of an enclave in mode S. It sets its stack and its trap handler, and calls runtime(base, size, window, window size).
# Then it calls application(result of runtime) in mode U.
        .section .text.start, "ax"
        .globl  enclave_entry
enclave_entry:
        la      sp, runtime_stack_top
        la      t0, trapped
        csrw    stvec, t0
        call    runtime
        csrw    sscratch, sp    # the stack of the runtime, for traps of the application
        la      t0, in_user_mode
        csrw    sepc, t0
        csrw    sstatus, zero   # SPP is 0: sret goes to U
        la      sp, application_stack_top
        sret
in_user_mode:
        call    application
        li      a1, 0           # service 0: the application has returned the value in a0
        ecall

# Handles a trap of the application: saves its caller-saved registers on the stack of the runtime, and calls served(value, service)
# with its a0 and a1. The result is a0 of the application, which continues after its ecall.
        .balign 4
trapped:
        csrrw   sp, sscratch, sp
        addi    sp, sp, -64
        sw      ra, 0(sp)
        sw      t0, 4(sp)
        sw      t1, 8(sp)
        sw      t2, 12(sp)
        sw      t3, 16(sp)
        sw      t4, 20(sp)
        sw      t5, 24(sp)
        sw      t6, 28(sp)
        sw      a1, 32(sp)
        sw      a2, 36(sp)
        sw      a3, 40(sp)
        sw      a4, 44(sp)
        sw      a5, 48(sp)
        sw      a6, 52(sp)
        sw      a7, 56(sp)
        call    served
        csrr    t0, sepc
        addi    t0, t0, 4
        csrw    sepc, t0
        lw      ra, 0(sp)
        lw      t0, 4(sp)
        lw      t1, 8(sp)
        lw      t2, 12(sp)
        lw      t3, 16(sp)
        lw      t4, 20(sp)
        lw      t5, 24(sp)
        lw      t6, 28(sp)
        lw      a1, 32(sp)
        lw      a2, 36(sp)
        lw      a3, 40(sp)
        lw      a4, 44(sp)
        lw      a5, 48(sp)
        lw      a6, 52(sp)
        lw      a7, 56(sp)
        addi    sp, sp, 64
        csrrw   sp, sscratch, sp
        sret
