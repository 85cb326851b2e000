/* A console in memory: `rvlook run`, `trace`, `page`, the prompt and gdb show what a program writes to it. It is no device.

   The console of a host is an object of its own. That of an enclave lies in the last bytes of its window, so the host sees what the enclave
   prints. Each has one writer at a time. link.ld places the console of the enclave. */
#ifndef MONITOR_CONSOLE_H
#define MONITOR_CONSOLE_H

#define CONSOLE_TEXT 256 /* bytes; a power of two */

struct console {
    volatile unsigned written; /* characters so far; character n is text[n % CONSOLE_TEXT] */
    volatile unsigned ended;   /* 1 after finish() */
    volatile int status;       /* of finish() */
    unsigned reserved;
    volatile char text[CONSOLE_TEXT];
};

#ifdef IN_ENCLAVE
extern struct console window_console;
#define CONSOLE (&window_console)
#else
__attribute__((weak)) struct console host_console;
#define CONSOLE (&host_console)
#endif

/* Prints a character. */
static inline void print_character(char character)
{
    unsigned at = CONSOLE->written;

    CONSOLE->text[at % CONSOLE_TEXT] = character;
    CONSOLE->written = at + 1;
}

/* Prints a string, which ends with a zero byte. */
static inline void print(const char *text)
{
    while (*text)
        print_character(*text++);
}

/* Prints a number in decimal digits. */
static inline void print_number(unsigned number)
{
    char digits[10];
    int count = 0;

    do
        digits[count++] = '0' + number % 10;
    while (number /= 10);
    while (count)
        print_character(digits[--count]);
}

/* Prints a number in eight hexadecimal digits. */
static inline void print_hex(unsigned number)
{
    for (int shift = 28; shift >= 0; shift -= 4)
        print_character("0123456789abcdef"[number >> shift & 15]);
}

#ifndef IN_ENCLAVE
/* Ends the program: `rvlook run` exits with the lowest eight bits of the status. */
__attribute__((noreturn)) static inline void finish(int status)
{
    CONSOLE->status = status;
    CONSOLE->ended = 1;
    for (;;)
        ;
}
#endif

#endif
