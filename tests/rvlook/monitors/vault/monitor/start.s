# The entry of the monitor, and its trap handler. mscratch holds the address of the context of the world that runs, which is saved in place.
        .section .text.start, "ax"
        .globl  monitor_entry
monitor_entry:
        la      sp, stack_top
        la      t0, trap_entry
        csrw    mtvec, t0
        call    monitor_start           # returns the context of the host
        j       continue_world

        .balign 4
trap_entry:
        csrrw   sp, mscratch, sp
        .irp    n, 1, 3, 4, 5, 6, 7, 8, 9, 10, 11, 12, 13, 14, 15, 16, 17, 18, 19, 20, 21, 22, 23, 24, 25, 26, 27, 28, 29, 30, 31
        sw      x\n, 4*\n(sp)
        .endr
        csrrw   t0, mscratch, sp
        sw      t0, 8(sp)               # sp of the world
        csrr    t0, mepc
        sw      t0, 0(sp)
        mv      a0, sp
        la      sp, stack_top
        call    handle_trap             # returns the context of the world that continues

continue_world:
        csrw    mscratch, a0
        mv      sp, a0
        lw      t0, 0(sp)
        csrw    mepc, t0
        .irp    n, 1, 3, 4, 5, 6, 7, 8, 9, 10, 11, 12, 13, 14, 15, 16, 17, 18, 19, 20, 21, 22, 23, 24, 25, 26, 27, 28, 29, 30, 31
        lw      x\n, 4*\n(sp)
        .endr
        lw      sp, 8(sp)
        mret

# load_as_world: loads the word at a0 with the rights of S. Returns it in a0, and whether it was loaded in a1.
        .text
        .globl  load_as_world
load_as_world:
        la      t0, load_failed
        csrrw   t1, mtvec, t0
        li      t2, 0x1800
        csrc    mstatus, t2
        li      t2, 0x20800             # MPRV, and S in MPP
        csrs    mstatus, t2
        li      a1, 1
        lw      a0, 0(a0)
        li      t2, 0x20000
        csrc    mstatus, t2
        csrw    mtvec, t1
        ret

# The trap of the load: continues after it, with a1 = 0.
        .balign 4
load_failed:
        csrr    t2, mepc
        addi    t2, t2, 4
        csrw    mepc, t2
        li      a0, 0
        li      a1, 0
        mret

        .section .bss
        .balign 16
stack_bottom:
        .space  1024
stack_top:
