/* A host alone, which makes its enclaves itself. */
ENTRY(_start)

MEMORY
{
    HOST : ORIGIN = 0x80010000, LENGTH = 16K
}

PHDRS
{
    host PT_LOAD;
    data PT_LOAD;
}

SECTIONS
{
    .text : { *(.text.start) *(.text .text.*) *(.rodata .rodata.* .srodata .srodata.*) } > HOST :host
    .data : ALIGN(16) { *(.data .data.* .sdata .sdata.*) } > HOST :data
    .bss : { *(.sbss .sbss.*) *(.bss .bss.*) *(COMMON) } > HOST :data
    host_stack_bottom = ALIGN(16);
    host_stack_top = ORIGIN(HOST) + LENGTH(HOST);
    /DISCARD/ : { *(.comment) *(.note .note.*) *(.eh_frame*) *(.riscv.attributes) *.attributes }
}
