/* For the kit's C compiler, which has no headers of its own: what the C programs here use of its C library. */
#pragma once
#include <stddef.h>
void *malloc(size_t bytes);
void free(void *memory);
_Noreturn void exit(int status);
char *getenv(const char *name);
int atoi(const char *text);
