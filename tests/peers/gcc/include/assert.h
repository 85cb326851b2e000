/* assert.h over abort. */
__attribute__((noreturn)) void abort(void);
#define assert(condition) ((condition) ? (void)0 : abort())
