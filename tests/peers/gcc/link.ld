/* A test in a region, and the host of an enclave before it. --defsym gives host_base, region_base and region_size. */
ENTRY(_start)
PHDRS { host PT_LOAD; test PT_LOAD; }
SECTIONS
{
    .host host_base : { *(.host) } :host
    .text region_base : { *(.text.start) *(.text .text.*) *(.rodata .rodata.* .srodata .srodata.*) } :test
    .data : ALIGN(16) { *(.data .data.* .sdata .sdata.*) } :test
    .bss : { *(.sbss .sbss.*) *(.bss .bss.*) *(COMMON) } :test
    stack_top = region_base + region_size - 64;
    /DISCARD/ : { *(.comment) *(.note .note.*) *(.eh_frame*) *(.riscv.attributes) }
}
