// The machine of rvbench as a platform of OpenSBI: one hart, no device, and a console that is a buffer in memory.
#include <sbi/riscv_asm.h>
#include <sbi/sbi_console.h>
#include <sbi/sbi_const.h>
#include <sbi/sbi_platform.h>

#define CONSOLE_BYTES 8192

// The text that OpenSBI printed, and its length in bytes. It ends when the buffer is full.
char console_text[CONSOLE_BYTES];
unsigned console_length;

static void put_character(char it)
{
    if (console_length < CONSOLE_BYTES)
        console_text[console_length++] = it;
}

static const struct sbi_console_device console = {.name = "console_text", .console_putc = put_character};

static int early_init(bool is_cold_boot)
{
    if (is_cold_boot)
        sbi_console_set_device(&console);
    return 0;
}

static const struct sbi_platform_operations operations = {.early_init = early_init};

const struct sbi_platform platform = {
    .opensbi_version = OPENSBI_VERSION,
    .platform_version = SBI_PLATFORM_VERSION(0, 1),
    .name = "rvbench",
    .features = SBI_PLATFORM_DEFAULT_FEATURES,
    .hart_count = 1,
    .hart_stack_size = SBI_PLATFORM_DEFAULT_HART_STACK_SIZE,
    .heap_size = SBI_PLATFORM_DEFAULT_HEAP_SIZE(1),
    .platform_ops_addr = (unsigned long)&operations,
};
