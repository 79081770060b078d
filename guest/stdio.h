/* Of the C library, what guest/libc.c has. */
#ifndef GUEST_STDIO_H
#define GUEST_STDIO_H
#include <stddef.h>
/* %d %i %u %x %c %s %p %%, with l, ll or z before d, i, u and x, and a width with or without a 0 before it. */
int printf(const char *format, ...) __attribute__((format(printf, 1, 2)));
int puts(const char *text);
int putchar(int byte);
#endif
