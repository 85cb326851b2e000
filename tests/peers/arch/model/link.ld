/* The linker script of riscv-arch-test, for RAM at 80000000. */
ENTRY(rvtest_entry_point)
SECTIONS
{
    . = 0x80000000;
    .text.init : { *(.text.init) }
    . = ALIGN(0x1000);
    .text : { *(.text) }
    . = ALIGN(0x1000);
    .data : { *(.data) *(.data.string) }
    .bss : { *(.bss) }
    _end = .;
}
