/* The part of the C library that the tests use, for a machine that has the kit and no headers. */
#ifndef STD_STDLIB_H
#define STD_STDLIB_H
#include <stddef.h>
void *malloc(size_t size);
void free(void *memory);
#endif
