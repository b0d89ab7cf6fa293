/* For the kit's C compiler, which has no headers of its own: what the C programs here use of its C library. */
#pragma once
#include <stddef.h>
int strcmp(const char *a, const char *b);
size_t strlen(const char *text);
int memcmp(const void *a, const void *b, size_t count);
void *memcpy(void *to, const void *from, size_t count);
void *memset(void *to, int byte, size_t count);
