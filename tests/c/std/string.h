/* The part of the C library that the tests use, for a machine that has the kit and no headers. */
#ifndef STD_STRING_H
#define STD_STRING_H
#include <stddef.h>
int memcmp(const void *a, const void *b, size_t size);
void *memcpy(void *to, const void *from, size_t size);
void *memset(void *to, int byte, size_t size);
#endif
