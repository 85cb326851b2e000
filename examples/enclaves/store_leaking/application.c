#define LEAKING
#include "../store/application.c"
