# The host: OpenSBI enters it in S with a0 = 0 and a1 = the address of the device tree. It ends in a loop at `halt`.
        .globl _start
_start:
        la      sp, stack_top
        call    main
        .globl halt
halt:
        j       halt

        .bss
        .balign 16
        .space  4096
stack_top:
