# The entry of the monitor in mode M, and its trap handler.
        .section .text.start, "ax"

# a0 is the address of the host's first instruction, a1 the number of bytes of RAM.
        .globl  monitor_entry
monitor_entry:
        la      sp, monitor_stack_top
        la      t0, trap_entry
        csrw    mtvec, t0
        la      t0, current
        csrw    mscratch, t0    # holds the address of `current` while S or U runs
        call    monitor_start
        j       return_below

# Saves x1 to x31 and pc of the world that trapped in `current`, calls handle_trap, and continues the world that is in `current` then.
        .balign 4
trap_entry:
        csrrw   t6, mscratch, t6
        sw      x1, 4(t6)
        sw      x2, 8(t6)
        sw      x3, 12(t6)
        sw      x4, 16(t6)
        sw      x5, 20(t6)
        sw      x6, 24(t6)
        sw      x7, 28(t6)
        sw      x8, 32(t6)
        sw      x9, 36(t6)
        sw      x10, 40(t6)
        sw      x11, 44(t6)
        sw      x12, 48(t6)
        sw      x13, 52(t6)
        sw      x14, 56(t6)
        sw      x15, 60(t6)
        sw      x16, 64(t6)
        sw      x17, 68(t6)
        sw      x18, 72(t6)
        sw      x19, 76(t6)
        sw      x20, 80(t6)
        sw      x21, 84(t6)
        sw      x22, 88(t6)
        sw      x23, 92(t6)
        sw      x24, 96(t6)
        sw      x25, 100(t6)
        sw      x26, 104(t6)
        sw      x27, 108(t6)
        sw      x28, 112(t6)
        sw      x29, 116(t6)
        sw      x30, 120(t6)
        csrr    t5, mepc
        sw      t5, 0(t6)       # the place of x0 holds pc
        csrrw   t5, mscratch, t6
        sw      t5, 124(t6)     # x31
        la      sp, monitor_stack_top
        call    handle_trap

return_below:
        la      t6, current
        lw      t5, 0(t6)
        csrw    mepc, t5
        lw      x1, 4(t6)
        lw      x2, 8(t6)
        lw      x3, 12(t6)
        lw      x4, 16(t6)
        lw      x5, 20(t6)
        lw      x6, 24(t6)
        lw      x7, 28(t6)
        lw      x8, 32(t6)
        lw      x9, 36(t6)
        lw      x10, 40(t6)
        lw      x11, 44(t6)
        lw      x12, 48(t6)
        lw      x13, 52(t6)
        lw      x14, 56(t6)
        lw      x15, 60(t6)
        lw      x16, 64(t6)
        lw      x17, 68(t6)
        lw      x18, 72(t6)
        lw      x19, 76(t6)
        lw      x20, 80(t6)
        lw      x21, 84(t6)
        lw      x22, 88(t6)
        lw      x23, 92(t6)
        lw      x24, 96(t6)
        lw      x25, 100(t6)
        lw      x26, 104(t6)
        lw      x27, 108(t6)
        lw      x28, 112(t6)
        lw      x29, 116(t6)
        lw      x30, 120(t6)
        lw      x31, 124(t6)
        mret

        .section .bss
        .balign 16
monitor_stack_bottom:
        .space  2048
monitor_stack_top:
