// The runtime of the example hmac, unchanged.
#include "../hmac/runtime.c"
