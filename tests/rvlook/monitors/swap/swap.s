# The entry of the monitor in M, and the trap handler. mscratch holds the frame of the world that runs.
        .section .text.start, "ax"
        .globl  monitor_entry
monitor_entry:
        la      sp, frames_stack_top
        la      t0, on_trap
        csrw    mtvec, t0
        call    begin
        j       continue_frame

        .balign 4
on_trap:
        csrrw   a0, mscratch, a0
        .irp    n, 1, 2, 3, 4, 5, 6, 7, 8, 9, 11, 12, 13, 14, 15, 16, 17, 18, 19, 20, 21, 22, 23, 24, 25, 26, 27, 28, 29, 30, 31
        sw      x\n, 4*\n(a0)
        .endr
        csrr    t0, mepc
        sw      t0, 0(a0)
        csrr    t0, mscratch
        sw      t0, 40(a0)
        la      sp, frames_stack_top
        call    on_trap_of

# Continues the world whose frame is in a0.
continue_frame:
        csrw    mscratch, a0
        lw      t0, 0(a0)
        csrw    mepc, t0
        .irp    n, 1, 2, 3, 4, 5, 6, 7, 8, 9, 11, 12, 13, 14, 15, 16, 17, 18, 19, 20, 21, 22, 23, 24, 25, 26, 27, 28, 29, 30, 31
        lw      x\n, 4*\n(a0)
        .endr
        lw      x10, 40(a0)
        mret

        .section .bss
        .balign 16
        .space  4096
frames_stack_top:
