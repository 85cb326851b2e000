/* A program of this folder: code from the first address of RAM, then data; the stack ends at 80010000. */
ENTRY(_start)
SECTIONS {
  . = 0x80000000;
  .text : { *(.text.start) *(.text*) *(.rodata*) *(.srodata*) }
  . = ALIGN(256);
  .data : { *(.data*) *(.sdata*) *(.bss*) *(.sbss*) *(COMMON) }
  /DISCARD/ : { *(.comment) *(.note*) *(.eh_frame*) *(.riscv.attributes) }
}
