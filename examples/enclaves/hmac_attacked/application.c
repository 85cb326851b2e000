// The application of the example hmac, unchanged.
#include "../hmac/application.c"
