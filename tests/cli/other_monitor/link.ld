ENTRY ( monitor_entry )
MEMORY { KERNEL : ORIGIN = 0x80000000, LENGTH = 64K }
PHDRS { kernel PT_LOAD; }
SECTIONS
{
    .monitor : { *(.monitor.text.entry) *(.monitor.text*) *(.monitor.rodata*) *(.monitor.*data*) *(.monitor.*bss*) } > KERNEL :kernel
    /DISCARD/ : { *(.comment) *(.note .note.*) *(.eh_frame*) *(.monitor.eh_frame*) *(.riscv.attributes) *.attributes }
}
