#include "stack.h"

#include <stdint.h>

enum { WORDS = 1024 };

static const uint64_t paint = 0x5AFEC0DE5AFEC0DE;

#ifdef __wasm__

/* A module has no say where its stack is: what lies below this function's own frame is painted. The processor's own stack, with
 * what calls return to, lies outside of the memory and is not seen. */
__attribute__((noinline)) size_t stack_used(void (*call)(void))
{
    uint64_t frame[2];
    volatile uint64_t *top = frame;
    for (size_t i = 1; i < WORDS; i++)
        *(top - i) = paint;
    call();
    size_t lowest = WORDS - 1;
    while (lowest > 0 && *(top - lowest) == paint)
        lowest--;
    return (lowest + 1) * sizeof *top; /* a word more: a call without a frame has been measured too */
}

#else

/* All paint between calls, so that only what a call touched is painted again. */
static _Alignas(16) uint64_t words[WORDS];

static void paint_from(size_t at)
{
    for (; at < WORDS; at++)
        words[at] = paint;
}

static size_t lowest_touched(void)
{
    size_t at = 0;
    while (at < WORDS && words[at] == paint)
        at++;
    return at;
}

/* C has no words for another stack. A register that survives calls keeps the present one. */
static void call_on_words(void (*call)(void))
{
#if defined __x86_64__
    __asm__ volatile("movq %%rsp, %%rbx\n\t"
                     "movq %0, %%rsp\n\t"
                     "callq *%1\n\t"
                     "movq %%rbx, %%rsp"
                     :
                     : "r"(words + WORDS), "r"(call)
                     : "rax", "rbx", "rcx", "rdx", "rsi", "rdi", "r8", "r9", "r10", "r11", "xmm0", "xmm1", "xmm2", "xmm3", "xmm4", "xmm5",
                       "xmm6", "xmm7", "xmm8", "xmm9", "xmm10", "xmm11", "xmm12", "xmm13", "xmm14", "xmm15", "cc", "memory");
#elif defined __aarch64__
    __asm__ volatile("mov x19, sp\n\t"
                     "mov sp, %0\n\t"
                     "blr %1\n\t"
                     "mov sp, x19"
                     :
                     : "r"(words + WORDS), "r"(call)
                     : "x0", "x1", "x2", "x3", "x4", "x5", "x6", "x7", "x8", "x9", "x10", "x11", "x12", "x13", "x14", "x15", "x16", "x17",
                       "x18", "x19", "x30", "v0", "v1", "v2", "v3", "v4", "v5", "v6", "v7", "v16", "v17", "v18", "v19", "v20", "v21", "v22",
                       "v23", "v24", "v25", "v26", "v27", "v28", "v29", "v30", "v31", "cc", "memory");
#elif defined __arm__
    __asm__ volatile("mov r4, sp\n\t"
                     "mov sp, %0\n\t"
                     "blx %1\n\t"
                     "mov sp, r4"
                     :
                     : "r"(words + WORDS), "r"(call)
                     : "r0", "r1", "r2", "r3", "r4", "r12", "lr", "cc", "memory");
#elif defined __riscv
    __asm__ volatile("mv s1, sp\n\t"
                     "mv sp, %0\n\t"
                     "jalr %1\n\t"
                     "mv sp, s1"
                     :
                     : "r"(words + WORDS), "r"(call)
                     : "ra", "s1", "t0", "t1", "t2", "t3", "t4", "t5", "t6", "a0", "a1", "a2", "a3", "a4", "a5", "a6", "a7", "memory");
#else
#error "no words for another stack on this processor"
#endif
}

size_t stack_used(void (*call)(void))
{
    if (words[0] != paint)
        paint_from(0);
    call_on_words(call);
    size_t lowest = lowest_touched();
    paint_from(lowest);
    return (WORDS - lowest) * sizeof *words;
}

#endif
