/* A host, and two enclaves with regions of 8 KiB and 16 KiB. The last words of each region are its data. */
ENTRY(_start)

MEMORY
{
    HOST : ORIGIN = 0x80010000, LENGTH = 16K
    FIRST : ORIGIN = 0x80014000, LENGTH = 8K
    SECOND : ORIGIN = 0x80018000, LENGTH = 16K
}

PHDRS
{
    host PT_LOAD;
    data PT_LOAD;
    first PT_LOAD;
    second PT_LOAD;
}

SECTIONS
{
    .text : { *(.text.start) *(.text .text.*) *(.rodata .rodata.* .srodata .srodata.*) } > HOST :host
    .data : ALIGN(16) { *(.data .data.* .sdata .sdata.*) } > HOST :data
    .bss : { *(.sbss .sbss.*) *(.bss .bss.*) *(COMMON) } > HOST :data
    host_stack_bottom = ALIGN(16);
    .first : { *(.enclave.text.start) } > FIRST :first
    .first.data ORIGIN(FIRST) + LENGTH(FIRST) - 8 : { *(.enclave.data.first) } > FIRST :first
    .second : { *(.enclave.text.second) } > SECOND :second
    .second.data ORIGIN(SECOND) + LENGTH(SECOND) - 8 : { *(.enclave.data.second) } > SECOND :second
    host_stack_top = ORIGIN(HOST) + LENGTH(HOST);
    /DISCARD/ : { *(.comment) *(.note .note.*) *(.eh_frame*) *(.riscv.attributes) *.attributes *(.enclave.eh_frame*) }
}
