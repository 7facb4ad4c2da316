/* A program without a C library under Linux: its start and its calls of the system. */
#include <libc.h>

#if defined __aarch64__
#define NUMBER "x8"
#define FIRST "x0"
#define SECOND "x1"
#define THIRD "x2"
#define CALL "svc 0"
enum { READ = 63, WRITE = 64, EXIT = 93, CLOCK = 113 };
__asm__(".globl _start\n_start:\n\tmov x29, #0\n\tb begin\n");
#elif defined __arm__
#define NUMBER "r7"
#define FIRST "r0"
#define SECOND "r1"
#define THIRD "r2"
#define CALL "svc 0"
enum { READ = 3, WRITE = 4, EXIT = 1, CLOCK = 263 };
__asm__(".globl _start\n_start:\n\tb begin\n");
#elif defined __riscv
#define NUMBER "a7"
#define FIRST "a0"
#define SECOND "a1"
#define THIRD "a2"
#define CALL "ecall"
enum { READ = 63, WRITE = 64, EXIT = 93, CLOCK = 113 };
__asm__(".globl _start\n_start:\n\t.option push\n\t.option norelax\n\tlla gp, __global_pointer$\n\t.option pop\n\tj begin\n");
#endif

static long call(long number, long a, const void *b, size_t c)
{
    register long n __asm__(NUMBER) = number;
    register long first __asm__(FIRST) = a;
    register const void *second __asm__(SECOND) = b;
    register size_t third __asm__(THIRD) = c;
    __asm__ volatile(CALL : "+r"(first) : "r"(n), "r"(second), "r"(third) : "memory");
    return first;
}

long read(int file, void *bytes, size_t count)
{
    return call(READ, file, bytes, count);
}

long write(int file, const void *bytes, size_t count)
{
    return call(WRITE, file, bytes, count);
}

int clock_gettime(int clock, struct timespec *now)
{
    return (int)call(CLOCK, clock, now, 0);
}

_Noreturn void exit(int status)
{
    for (;;)
        call(EXIT, status, NULL, 0);
}

int main(void);
_Noreturn void begin(void);

_Noreturn void begin(void)
{
    exit(main());
}
