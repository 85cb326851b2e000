#include "../store/host.c"
