/* A host after the range of the monitor, the region of an enclave, and the symbols that both use. The names of the sections of an
   enclave begin with .enclave (examples/build renames them), so that nothing of the host is placed in the region. */
ENTRY(_start)

MEMORY
{
    HOST : ORIGIN = 0x80010000, LENGTH = 64K
    REGION : ORIGIN = 0x80020000, LENGTH = 8K
    WINDOW : ORIGIN = 0x80030000, LENGTH = 4K
}

PHDRS
{
    host PT_LOAD;
    data PT_LOAD;
    enclave PT_LOAD;
}

SECTIONS
{
    .text : { *(.text.start) *(.text .text.*) *(.rodata .rodata.* .srodata .srodata.*) } > HOST :host
    .data : ALIGN(16) { *(.data .data.* .sdata .sdata.*) } > HOST :data
    .bss : { *(.sbss .sbss.*) *(.bss .bss.*) *(COMMON) } > HOST :data
    host_stack_bottom = ALIGN(16);
    .enclave :
    {
        *(.enclave.text.start) *(.enclave.text .enclave.text.*)
        *(.enclave.rodata .enclave.rodata.* .enclave.srodata .enclave.srodata.*)
        . = ALIGN(16);
        *(.enclave.data .enclave.data.* .enclave.sdata .enclave.sdata.* .enclave.sbss .enclave.sbss.* .enclave.bss .enclave.bss.*)
    } > REGION :enclave
    application_stack_bottom = ALIGN(16);
    host_stack_top = ORIGIN(HOST) + LENGTH(HOST);
    region_base = ORIGIN(REGION);
    region_size = LENGTH(REGION);
    window_base = ORIGIN(WINDOW);
    window_size = LENGTH(WINDOW);
    PROVIDE(window_console = ORIGIN(WINDOW) + LENGTH(WINDOW) - 512);
    runtime_stack_top = ORIGIN(REGION) + LENGTH(REGION);
    application_stack_top = ORIGIN(REGION) + LENGTH(REGION) - 512;
    runtime_stack_bottom = application_stack_top;
    /DISCARD/ : { *(.comment) *(.note .note.*) *(.eh_frame*) *(.riscv.attributes) *.attributes *(.enclave.eh_frame*) }
}
