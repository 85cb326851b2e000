/* The model of rvbench for riscv-arch-test: a test ends in a loop at rvbench_halt, and its signature is in memory. */
#ifndef RVBENCH_MODEL_TEST_H
#define RVBENCH_MODEL_TEST_H

#define RVMODEL_BOOT
#define RVMODEL_HALT .global rvbench_halt; rvbench_halt: j rvbench_halt;
#define RVMODEL_DATA_SECTION
#define RVMODEL_DATA_BEGIN .align 4; .global begin_signature; begin_signature:
#define RVMODEL_DATA_END .align 4; .global end_signature; end_signature:
#define RVMODEL_IO_INIT
#define RVMODEL_IO_WRITE_STR(register, text)
#define RVMODEL_IO_CHECK()
#define RVMODEL_IO_ASSERT_GPR_EQ(scratch, register, value)
#define RVMODEL_IO_ASSERT_SFPR_EQ(register, first, second)
#define RVMODEL_IO_ASSERT_DFPR_EQ(register, first, second)
#define RVMODEL_SET_MSW_INT
#define RVMODEL_CLEAR_MSW_INT
#define RVMODEL_CLEAR_MTIMER_INT
#define RVMODEL_CLEAR_MEXT_INT

#endif
