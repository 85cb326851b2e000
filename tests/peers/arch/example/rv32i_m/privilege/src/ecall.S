/* A test in the form of riscv-arch-test: the registers after an ecall. */
#include "model_test.h"
#include "arch_test.h"
RVTEST_ISA("RV32I_Zicsr")
RVTEST_CODE_BEGIN
    RVTEST_SIGBASE(x2, signature)
    la      x5, handler
    csrw    mtvec, x5
    ecall
    .align 2
handler:
    csrr    x6, mcause
    RVTEST_SIGUPD(x2, x6)
    csrr    x6, mtval
    RVTEST_SIGUPD(x2, x6)
    csrr    x6, mstatus
    RVTEST_SIGUPD(x2, x6)
RVTEST_CODE_END
RVMODEL_HALT
RVTEST_DATA_BEGIN
    .word 0
RVTEST_DATA_END
RVMODEL_DATA_BEGIN
signature:
    .fill 4, 4, 0xdeadbeef
RVMODEL_DATA_END
