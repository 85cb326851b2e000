// Preloaded under a program: refuses its Nth allocation, N being the number in the variable REFUSE_AT.
// It includes no header, so that any C compiler can build it with the GNU C library.
extern void *__libc_malloc(unsigned long size);
extern void *__libc_calloc(unsigned long count, unsigned long size);
extern void *__libc_realloc(void *block, unsigned long size);
extern char *getenv(const char *name);

static unsigned long made;

static int is_refused(void) {
    unsigned long wanted = 0;
    const char *digit = getenv("REFUSE_AT");
    while (digit && *digit) wanted = wanted * 10 + (unsigned long)(*digit++ - '0');
    return ++made == wanted;
}

void *malloc(unsigned long size) { return is_refused() ? 0 : __libc_malloc(size); }

void *calloc(unsigned long count, unsigned long size) { return is_refused() ? 0 : __libc_calloc(count, size); }

void *realloc(void *block, unsigned long size) { return is_refused() ? 0 : __libc_realloc(block, size); }
