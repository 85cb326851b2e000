#include "../store/runtime.c"
