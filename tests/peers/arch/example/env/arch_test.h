/* The macros of riscv-arch-test that the two examples use. The suite itself has its own file of this name. */
#define RVTEST_ISA(text)
#define RVTEST_CODE_BEGIN .section .text.init; .global rvtest_entry_point; rvtest_entry_point: RVMODEL_BOOT
#define RVTEST_CODE_END
#define RVTEST_DATA_BEGIN .data; .align 4
#define RVTEST_DATA_END
#define RVTEST_SIGBASE(register, label) la register, label; .set offset, 0
#define RVTEST_SIGUPD(base, register) sw register, offset(base); .set offset, offset + 4
#define TEST_RR_OP(instruction, rd, rs1, rs2, correct, first, second, base) \
    li rs1, first; li rs2, second; instruction rd, rs1, rs2; RVTEST_SIGUPD(base, rd)
