/* Mbed TLS names FILE in declarations; the configuration replaces the functions that print. */
#include <stddef.h>

typedef struct file FILE;
