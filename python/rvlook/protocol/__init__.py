"""The protocol to the bench: its process, commands, replies, instructions and names; a run, and how it is replayed from reset."""
