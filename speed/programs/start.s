# The start of a program of this folder: sets the stack, and calls the work forever.
.section .text.start, "ax"
.globl _start
_start:
    lui sp, 0x80010
again:
    call work
    j again
