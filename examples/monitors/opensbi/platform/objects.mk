# RV32IM without compressed instructions. The payload is the host in S.
PLATFORM_RISCV_XLEN = 32
PLATFORM_RISCV_ABI = ilp32
PLATFORM_RISCV_ISA = rv32im
PLATFORM_RISCV_CODE_MODEL = medany
platform-objs-y += platform.o
FW_TEXT_START = 0x80000000
FW_PAYLOAD = y
FW_PAYLOAD_OFFSET = 0x100000
