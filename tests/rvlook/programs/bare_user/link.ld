/* A bare image: it begins at the reset address of a bare machine. */
ENTRY(_start)

MEMORY
{
    HOST : ORIGIN = 0x80000000, LENGTH = 64K
}

SECTIONS
{
    .text : { *(.text.start) *(.text .text.*) *(.rodata .rodata.* .srodata .srodata.*) } > HOST
    .data : ALIGN(16) { *(.data .data.* .sdata .sdata.* .sbss .sbss.* .bss .bss.* COMMON) } > HOST
    host_stack_top = ORIGIN(HOST) + LENGTH(HOST);
    /DISCARD/ : { *(.comment) *(.note .note.*) *(.eh_frame*) *(.riscv.attributes) *.attributes }
}
