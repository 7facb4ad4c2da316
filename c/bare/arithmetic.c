/* What compilers ask a library for on processors of 32 bits: arithmetic on 64, and on Arm copies by names of their own.
 * Nothing here uses an operation that would be asked for here. */
#include <libc.h>
#include <stdint.h>

#if defined __arm__ || (defined __riscv && __riscv_xlen == 32)

static uint64_t doubled(uint64_t number)
{
    return number + number;
}

uint64_t divide(uint64_t number, uint64_t by, uint64_t *rest);

uint64_t divide(uint64_t number, uint64_t by, uint64_t *rest)
{
    uint64_t result = 0;
    *rest = 0;
    for (int i = 0; i < 64; i++) {
        *rest = doubled(*rest) + ((uint32_t)(number >> 32) >> 31);
        number = doubled(number);
        result = doubled(result);
        if (*rest >= by) {
            *rest -= by;
            result += 1;
        }
    }
    return result;
}

#endif

#if defined __riscv && __riscv_xlen == 32

uint64_t __udivdi3(uint64_t number, uint64_t by);

uint64_t __udivdi3(uint64_t number, uint64_t by)
{
    uint64_t rest;
    return divide(number, by, &rest);
}

#elif defined __arm__

/* Quotient in r0 and r1, rest in r2 and r3. */
__asm__(".syntax unified\n"
        ".thumb\n"
        ".globl __aeabi_uldivmod\n"
        ".type __aeabi_uldivmod, %function\n"
        ".thumb_func\n"
        "__aeabi_uldivmod:\n\t"
        "push {r4, lr}\n\t"
        "sub sp, #16\n\t"
        "add r4, sp, #8\n\t"
        "str r4, [sp]\n\t"
        "bl divide\n\t"
        "ldr r2, [sp, #8]\n\t"
        "ldr r3, [sp, #12]\n\t"
        "add sp, #16\n\t"
        "pop {r4, pc}\n");

uint64_t __aeabi_uidivmod(uint32_t number, uint32_t by);
uint32_t __aeabi_uidiv(uint32_t number, uint32_t by);
uint64_t __aeabi_lmul(uint64_t a, uint64_t b);
uint64_t __aeabi_llsl(uint64_t number, int by);
uint64_t __aeabi_llsr(uint64_t number, int by);

/* Quotient in r0, rest in r1. */
uint64_t __aeabi_uidivmod(uint32_t number, uint32_t by)
{
    uint64_t rest;
    uint32_t result = (uint32_t)divide(number, by, &rest);
    return (uint64_t)(uint32_t)rest << 32 | result;
}

uint32_t __aeabi_uidiv(uint32_t number, uint32_t by)
{
    uint64_t rest;
    return (uint32_t)divide(number, by, &rest);
}

uint64_t __aeabi_lmul(uint64_t a, uint64_t b)
{
    uint64_t result = 0;
    for (; b != 0; b = (uint64_t)((uint32_t)(b >> 32) >> 1) << 32 | (uint32_t)(b >> 32) << 31 | (uint32_t)b >> 1) {
        if (b & 1)
            result += a;
        a = doubled(a);
    }
    return result;
}

uint64_t __aeabi_llsl(uint64_t number, int by)
{
    for (; by > 0; by--)
        number = doubled(number);
    return number;
}

uint64_t __aeabi_llsr(uint64_t number, int by)
{
    uint32_t low = (uint32_t)number, high = (uint32_t)(number >> 32);
    for (; by > 0; by--) {
        low = low >> 1 | high << 31;
        high >>= 1;
    }
    return (uint64_t)high << 32 | low;
}

#define COPY(name) \
    void name(void *to, const void *from, size_t count); \
    void name(void *to, const void *from, size_t count) { memcpy(to, from, count); }
#define MOVE(name) \
    void name(void *to, const void *from, size_t count); \
    void name(void *to, const void *from, size_t count) { memmove(to, from, count); }
#define FILL(name) \
    void name(void *to, size_t count, int byte); \
    void name(void *to, size_t count, int byte) { memset(to, byte, count); }
#define CLEAR(name) \
    void name(void *to, size_t count); \
    void name(void *to, size_t count) { memset(to, 0, count); }

COPY(__aeabi_memcpy)
COPY(__aeabi_memcpy4)
COPY(__aeabi_memcpy8)
MOVE(__aeabi_memmove)
MOVE(__aeabi_memmove4)
MOVE(__aeabi_memmove8)
FILL(__aeabi_memset)
FILL(__aeabi_memset4)
FILL(__aeabi_memset8)
CLEAR(__aeabi_memclr)
CLEAR(__aeabi_memclr4)
CLEAR(__aeabi_memclr8)

#endif
