"""The server for gdb and lldb, by the GDB remote serial protocol. `client.py` runs inside gdb."""
