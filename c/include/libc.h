/* What the C programs here use of the C library, as it is on Linux; c/bare has it for processors other than x86-64. */
#ifndef LIBC_H
#define LIBC_H

#include <stddef.h>

enum { STANDARD_INPUT = 0, STANDARD_OUTPUT = 1, STANDARD_ERROR = 2 };
enum { CLOCK_MONOTONIC = 1 };

struct timespec {
    long tv_sec;
    long tv_nsec;
};

long read(int file, void *bytes, size_t count);
long write(int file, const void *bytes, size_t count);
int clock_gettime(int clock, struct timespec *now);
int printf(const char *format, ...);
int dprintf(int file, const char *format, ...);
void *memcpy(void *to, const void *from, size_t count);
void *memmove(void *to, const void *from, size_t count);
void *memset(void *to, int byte, size_t count);
int memcmp(const void *a, const void *b, size_t count);
_Noreturn void exit(int status);

#endif
