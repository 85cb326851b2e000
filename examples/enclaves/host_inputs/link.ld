/* The memory layout of the example hmac. */
INCLUDE ../hmac/link.ld
