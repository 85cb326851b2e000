        .section .text.entry, "ax"
        .globl monitor_entry
monitor_entry:
        la      sp, stack_top
        mv      s0, a0
        call    protect
        csrw    mepc, s0
        li      t0, 1 << 11
        csrw    mstatus, t0
        mret
        .bss
        .balign 16
        .space  1024
stack_top:
