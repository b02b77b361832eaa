/* The part of the C library that the tests use, for a machine that has the kit and no headers. */
#ifndef STD_STDIO_H
#define STD_STDIO_H
#include <stddef.h>
int printf(const char *format, ...);
int puts(const char *text);
int snprintf(char *to, size_t size, const char *format, ...);
#endif
