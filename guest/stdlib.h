/* Of the C library, what guest/libc.c has. */
#ifndef GUEST_STDLIB_H
#define GUEST_STDLIB_H
#include <stddef.h>
/* 64 KiB in all, taken one after the other: free gives nothing back. */
void *malloc(size_t size);
void *calloc(size_t count, size_t size);
void free(void *place);
/* Ends this hart alone, and runs no destructors. */
__attribute__((noreturn)) void exit(int code);
#endif
