/* The function over free that a compiled library refers to. There is none that takes memory: the library for C calls none. */
#include <stdlib.h>

void rattle_dealloc(void *block) { free(block); }
