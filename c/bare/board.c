/* A program on one of QEMU's boards with a Cortex-M: its vectors, and files of the host by semihosting. c/bare/on-board runs it.
 * A word at an odd address traps, as it may on a controller, unless the compiler was told that it does not. */
#include <libc.h>
#include <stdint.h>

enum { OPEN = 0x01, WRITE = 0x05, READ = 0x06, EXIT = 0x20 }; /* semihosting's calls */
enum { TO_READ = 1, TO_WRITE = 5 };                           /* modes of its files */
enum { STOPPED = 0x20026, FAULT_STATUS = 99 };

#define CONFIGURATION (*(volatile uint32_t *)0xE000ED14) /* CCR */
#define COPROCESSORS (*(volatile uint32_t *)0xE000ED88)  /* CPACR */
enum { TRAP_UNALIGNED = 1 << 3, FLOATS = 0xF << 20 };

static int files[3];

static int call(int number, const void *block)
{
    register int r0 __asm__("r0") = number;
    register const void *r1 __asm__("r1") = block;
    __asm__ volatile("bkpt 0xab" : "+r"(r0) : "r"(r1) : "memory");
    return r0;
}

static int open(const char *name, uint32_t length, uint32_t mode)
{
    const uint32_t block[3] = {(uint32_t)name, mode, length};
    return call(OPEN, block);
}

/* Both say what they have not done. */
static long transfer(int number, int file, const void *bytes, size_t count)
{
    const uint32_t block[3] = {(uint32_t)files[file], (uint32_t)bytes, count};
    return (long)(count - (size_t)call(number, block));
}

long read(int file, void *bytes, size_t count)
{
    return transfer(READ, file, bytes, count);
}

long write(int file, const void *bytes, size_t count)
{
    return transfer(WRITE, file, bytes, count);
}

_Noreturn void exit(int status)
{
    const uint32_t block[2] = {STOPPED, (uint32_t)status};
    for (;;)
        call(EXIT, block);
}

int main(void);
void begin(void);

void begin(void)
{
#ifndef __ARM_FEATURE_UNALIGNED
    CONFIGURATION |= TRAP_UNALIGNED;
#endif
#ifdef __ARM_FP
    COPROCESSORS |= FLOATS;
#endif
    files[STANDARD_INPUT] = open("input", 5, TO_READ);
    files[STANDARD_OUTPUT] = open("output", 6, TO_WRITE);
    files[STANDARD_ERROR] = open("error", 5, TO_WRITE);
    exit(main());
}

static void fault(void)
{
    exit(FAULT_STATUS);
}

extern uint8_t stack_top[];
__attribute__((section(".vectors"), used)) static const void *const vectors[16] = {
    stack_top,     (void *)begin, (void *)fault, (void *)fault, (void *)fault, (void *)fault, (void *)fault, (void *)fault,
    (void *)fault, (void *)fault, (void *)fault, (void *)fault, (void *)fault, (void *)fault, (void *)fault, (void *)fault,
};
