// A host under OpenSBI: it makes two SBI calls (Supervisor Binary Interface 2.0, chapter 4) and keeps their answers.
struct answer {
    long error;
    long value;
};

enum { BASE = 0x10, SPECIFICATION_VERSION = 0, PROBE_EXTENSION = 3, TIME = 0x54494d45 };

struct answer version, has_time;

// Calls function `number` of an extension with one argument. The answer is in a0 and a1. All other registers must keep their values (chapter 3):
// a2 to a5 have values by which a check notices one that changes.
static struct answer call(long extension, long number, long argument)
{
    register long a0 asm("a0") = argument;
    register long a1 asm("a1");
    register long a2 asm("a2") = 0x22222222;
    register long a3 asm("a3") = 0x33333333;
    register long a4 asm("a4") = 0x44444444;
    register long a5 asm("a5") = 0x55555555;
    register long a6 asm("a6") = number;
    register long a7 asm("a7") = extension;
    asm volatile("ecall" : "+r"(a0), "=r"(a1), "+r"(a2), "+r"(a3), "+r"(a4), "+r"(a5) : "r"(a6), "r"(a7) : "memory");
    return (struct answer){a0, a1};
}

void main(void)
{
    version = call(BASE, SPECIFICATION_VERSION, 0);
    has_time = call(BASE, PROBE_EXTENSION, TIME);
}
