/* A host, and two enclaves with regions of 4 KiB. The last word of the first one is its secret. */
ENTRY(_start)

MEMORY
{
    HOST : ORIGIN = 0x80010000, LENGTH = 16K
    KEEPER : ORIGIN = 0x80014000, LENGTH = 4K
    ASKER : ORIGIN = 0x80015000, LENGTH = 4K
}

PHDRS
{
    host PT_LOAD;
    data PT_LOAD;
    keeper PT_LOAD;
    asker PT_LOAD;
}

SECTIONS
{
    .text : { *(.text.start) *(.text .text.*) *(.rodata .rodata.* .srodata .srodata.*) } > HOST :host
    .data : ALIGN(16) { *(.data .data.* .sdata .sdata.*) } > HOST :data
    .bss : { *(.sbss .sbss.*) *(.bss .bss.*) *(COMMON) } > HOST :data
    host_stack_bottom = ALIGN(16);
    .keeper : { *(.enclave.text.keeper) } > KEEPER :keeper
    .secret ORIGIN(KEEPER) + LENGTH(KEEPER) - 4 : { *(.enclave.data.secret) } > KEEPER :keeper
    .asker : { *(.enclave.text.start) } > ASKER :asker
    host_stack_top = ORIGIN(HOST) + LENGTH(HOST);
    /DISCARD/ : { *(.comment) *(.note .note.*) *(.eh_frame*) *(.riscv.attributes) *.attributes *(.enclave.eh_frame*) }
}
