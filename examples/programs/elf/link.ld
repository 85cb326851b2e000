/* The RAM, and two segments: one that the program executes and reads, and one that it writes. */
ENTRY(_start)

MEMORY
{
    RAM : ORIGIN = 0x80000000, LENGTH = 1M
}

PHDRS
{
    text PT_LOAD;
    data PT_LOAD;
}

SECTIONS
{
    .text : { *(.text.start) *(.text .text.*) *(.rodata .rodata.* .srodata .srodata.*) } > RAM :text
    .data : ALIGN(16) { *(.data .data.* .sdata .sdata.*) } > RAM :data
    .bss : { *(.sbss .sbss.*) *(.bss .bss.*) *(COMMON) } > RAM :data
    stack_top = ORIGIN(RAM) + LENGTH(RAM);
    /DISCARD/ : { *(.comment) *(.note .note.*) *(.eh_frame*) *(.riscv.attributes) }
}
