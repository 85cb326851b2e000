/* The types of the compiler itself. */
#include <stdint-gcc.h>
