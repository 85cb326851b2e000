// The runtime, in mode S: the same as in the example hmac.
#include "../hmac/runtime.c"
