/* The region and the window of the enclave, as placed by link.ld. Each begins at a multiple of its size, which is at least 4096. */
#ifndef MONITOR_MEMORY_H
#define MONITOR_MEMORY_H

/* GCC stores a word byte by byte if it does not know the alignment; the other hart may then see a part of the word. */
#if defined(__GNUC__) && !defined(__clang__)
#define AT_A_PAGE __attribute__((aligned(4096)))
#else
#define AT_A_PAGE
#endif

extern char region_base[] AT_A_PAGE, region_size[], window_base[] AT_A_PAGE, window_size[], enclave_entry[];

#define REGION ((unsigned)region_base)
#define REGION_SIZE ((unsigned)region_size)
#define WINDOW ((unsigned)window_base)
#define WINDOW_SIZE ((unsigned)window_size)
#define ENTRY ((unsigned)enclave_entry)

#endif
