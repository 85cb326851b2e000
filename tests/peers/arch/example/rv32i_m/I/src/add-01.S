/* A test in the form of riscv-arch-test: sums. */
#include "model_test.h"
#include "arch_test.h"
RVTEST_ISA("RV32I")
RVTEST_CODE_BEGIN
    RVTEST_SIGBASE(x2, signature)
    TEST_RR_OP(add, x5, x6, x7, 0x00000000, 0x80000000, 0x80000000, x2)
    TEST_RR_OP(add, x5, x6, x7, 0x80000000, 0x7fffffff, 0x00000001, x2)
    TEST_RR_OP(sub, x5, x6, x7, 0xffffffff, 0x00000000, 0x00000001, x2)
RVTEST_CODE_END
RVMODEL_HALT
RVTEST_DATA_BEGIN
    .word 0
RVTEST_DATA_END
RVMODEL_DATA_BEGIN
signature:
    .fill 4, 4, 0xdeadbeef
RVMODEL_DATA_END
