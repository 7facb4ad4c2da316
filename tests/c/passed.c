/* The library of tests/archive.sh as C on a processor calls it: whole registers are looked at, so that a number which is passed with
 * other bits above it than C there expects shows. */
#include <ghixramel.h>
#include <libc.h>

/* The result with the rest of its register. */
static unsigned long (*const low)(uint64_t) = (unsigned long (*)(uint64_t))(void (*)(void))ghixramel_low;

static int failed(const char *what, uint64_t got)
{
    printf("passed: %s: %llx\n", what, (unsigned long long)got);
    return 1;
}

int main(void)
{
    uint64_t wide[1] = {0};
    uint8_t bytes[3] = {7, 8, 9}, last[1] = {0};
#if defined __riscv && __riscv_xlen == 64
    if (low(0x1234567880000001) != 0xFFFFFFFF80000001 || low(0xFFFFFFFF7FFFFFFF) != 0x7FFFFFFF)
        return failed("a result's sign is not all above it", low(0x1234567880000001));
#else
    if ((uint32_t)low(0x1234567880000001) != 0x80000001)
        return failed("a result", low(0x1234567880000001));
#endif
    if (ghixramel_wide(0xFFFFFFFE, wide) != 0 || wide[0] != 0xFFFFFFFE)
        return failed("an argument of 32 bits", wide[0]);
    if (ghixramel_last(bytes, sizeof bytes, last) != 0 || last[0] != 9)
        return failed("the last of three bytes", last[0]);
    if (ghixramel_last(bytes, 0, last) != 1)
        return failed("the last of no bytes", last[0]);
    if (ghixramel_last(NULL, 0, last) != 1)
        return failed("the last of no bytes at no address", last[0]);
#ifdef WITH_TABLE
    static const uint32_t powers[] = {1, 2, 4, 0x80000000};
    for (uint64_t place = 0; place < 4; place++)
        if (ghixramel_power(place) != powers[place])
            return failed("a number of the table", ghixramel_power(place));
#endif
    return 0;
}
