"""The program and QEMU in lockstep, over the gdb server of QEMU."""
