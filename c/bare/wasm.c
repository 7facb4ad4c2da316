/* A program as a WebAssembly module: what it has of the outside are three imports. c/bare/on-node.mjs runs it. */
#include <libc.h>

#define FROM_OUTSIDE(name) __attribute__((import_module("outside"), import_name(name)))

FROM_OUTSIDE("read") long outside_read(int file, void *bytes, size_t count);
FROM_OUTSIDE("write") long outside_write(int file, const void *bytes, size_t count);
FROM_OUTSIDE("exit") _Noreturn void outside_exit(int status);

long read(int file, void *bytes, size_t count)
{
    return outside_read(file, bytes, count);
}

long write(int file, const void *bytes, size_t count)
{
    return outside_write(file, bytes, count);
}

_Noreturn void exit(int status)
{
    outside_exit(status);
}

/* The compiler's name for a main without arguments. */
int __main_void(void);
__attribute__((export_name("begin"))) void begin(void);

void begin(void)
{
    exit(__main_void());
}
