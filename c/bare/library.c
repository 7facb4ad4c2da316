/* What libc.h declares, for processors whose C library is not here; read, write and exit are the system's (linux.c, mps2.c, wasm.c). */
#include <libc.h>
#include <stdarg.h>
#include <stdint.h>

/* A word at a time while all that is left allows it: under an emulator every step counts. */
static int in_words(const void *a, const void *b, size_t count)
{
    return count >= sizeof(size_t) && ((size_t)a | (size_t)b) % sizeof(size_t) == 0;
}

void *memcpy(void *to, const void *from, size_t count)
{
    uint8_t *t = to;
    const uint8_t *f = from;
    for (; in_words(t, f, count); t += sizeof(size_t), f += sizeof(size_t), count -= sizeof(size_t))
        *(size_t *)t = *(const size_t *)f;
    while (count-- > 0)
        *t++ = *f++;
    return to;
}

void *memmove(void *to, const void *from, size_t count)
{
    uint8_t *t = to;
    const uint8_t *f = from;
    if (t <= f)
        return memcpy(to, from, count);
    while (count-- > 0)
        t[count] = f[count];
    return to;
}

void *memset(void *to, int byte, size_t count)
{
    uint8_t *t = to;
    const size_t word = (size_t)-1 / UINT8_MAX * (uint8_t)byte;
    for (; in_words(t, t, count); t += sizeof(size_t), count -= sizeof(size_t))
        *(size_t *)t = word;
    while (count-- > 0)
        *t++ = (uint8_t)byte;
    return to;
}

int memcmp(const void *a, const void *b, size_t count)
{
    const uint8_t *x = a, *y = b;
    while (in_words(x, y, count) && *(const size_t *)x == *(const size_t *)y) {
        x += sizeof(size_t);
        y += sizeof(size_t);
        count -= sizeof(size_t);
    }
    for (; count > 0; x++, y++, count--)
        if (*x != *y)
            return *x < *y ? -1 : 1;
    return 0;
}

/* A compiler's own name for it where only equality is asked. */
int bcmp(const void *a, const void *b, size_t count);

int bcmp(const void *a, const void *b, size_t count)
{
    return memcmp(a, b, count);
}

struct line {
    char bytes[512];
    size_t count;
};

static void put(struct line *line, char byte)
{
    if (line->count < sizeof line->bytes)
        line->bytes[line->count++] = byte;
}

static void put_number(struct line *line, unsigned long long number, unsigned base, int least)
{
    char digits[24];
    int count = 0;
    do {
        digits[count++] = "0123456789abcdef"[number % base];
        number /= base;
    } while (number != 0 || count < least);
    while (count > 0)
        put(line, digits[--count]);
}

/* %s, and of numbers %d, %u and %x, with l or ll and with a width of one digit after 0. */
static const char *put_next(struct line *line, const char *format, va_list *arguments)
{
    int least = 0, longs = 0;
    if (*format == '0') {
        least = format[1] - '0';
        format += 2;
    }
    for (; *format == 'l'; format++)
        longs++;
    if (*format == 's') {
        for (const char *text = va_arg(*arguments, const char *); *text != 0; text++)
            put(line, *text);
        return format;
    }
    unsigned long long number = longs == 0   ? va_arg(*arguments, unsigned)
                                : longs == 1 ? va_arg(*arguments, unsigned long)
                                             : va_arg(*arguments, unsigned long long);
    if (*format == 'd' && longs == 0 && (int)number < 0) {
        put(line, '-');
        number = 0u - (unsigned)number;
    }
    put_number(line, number, *format == 'x' ? 16 : 10, least);
    return format;
}

static int print(int file, const char *format, va_list *arguments)
{
    struct line line = {.count = 0};
    for (; *format != 0; format++) {
        if (*format == '%')
            format = put_next(&line, format + 1, arguments);
        else
            put(&line, *format);
    }
    return (int)write(file, line.bytes, line.count);
}

int printf(const char *format, ...)
{
    va_list arguments;
    va_start(arguments, format);
    int count = print(STANDARD_OUTPUT, format, &arguments);
    va_end(arguments);
    return count;
}

int dprintf(int file, const char *format, ...)
{
    va_list arguments;
    va_start(arguments, format);
    int count = print(file, format, &arguments);
    va_end(arguments);
    return count;
}
