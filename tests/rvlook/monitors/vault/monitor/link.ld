/* The monitor alone, in its 64 KiB. */
ENTRY(monitor_entry)

MEMORY
{
    MONITOR : ORIGIN = 0x80000000, LENGTH = 64K
}

PHDRS
{
    monitor PT_LOAD;
}

SECTIONS
{
    .monitor :
    {
        *(.monitor.text.start) *(.monitor.text .monitor.text.*)
        *(.monitor.rodata .monitor.rodata.* .monitor.srodata .monitor.srodata.*)
        . = ALIGN(16);
        *(.monitor.data .monitor.data.* .monitor.sdata .monitor.sdata.*)
        *(.monitor.sbss .monitor.sbss.* .monitor.bss .monitor.bss.*)
    } > MONITOR :monitor
    /DISCARD/ : { *(.comment) *(.note .note.*) *(.eh_frame*) *(.monitor.eh_frame*) *(.riscv.attributes) *.attributes }
}
