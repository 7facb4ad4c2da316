/* Lines in and text out, in bounded memory whatever the length of the input or of a line. In a header, so that a
 * program's loop has it in place. Words are read and written as on x86-64, lowest byte first. */
#ifndef TEXT_H
#define TEXT_H

#include <libc.h>
#include <stdint.h>

enum { BUFFER_BYTES = 65536, WORD_BYTES = 8 };

/* Words may be read and written past the last byte of a buffer. */
struct stream {
    uint8_t in[BUFFER_BYTES + WORD_BYTES];
    size_t at, end;
    int overlong; /* bytes of the line under way were dropped */
    uint8_t out[BUFFER_BYTES + WORD_BYTES];
    size_t filled;
};

static inline void flush(struct stream *s)
{
    size_t written = 0;
    while (written < s->filled) {
        long count = write(STANDARD_OUTPUT, s->out + written, s->filled - written);
        if (count <= 0)
            exit(1);
        written += (size_t)count;
    }
    s->filled = 0;
}

/* Where the next answer of at most `bytes` bytes goes; `put_end` says where it ended. */
static inline uint8_t *put_begin(struct stream *s, size_t bytes)
{
    if (BUFFER_BYTES - s->filled < bytes)
        flush(s);
    return s->out + s->filled;
}

static inline void put_end(struct stream *s, const uint8_t *to)
{
    s->filled = (size_t)(to - s->out);
}

/* Every complete line is answered before more is read, so that a host can talk through a pipe. */
static inline int refill(struct stream *s, size_t most)
{
    size_t rest = s->end - s->at;
    if (rest > most) {
        s->overlong = 1;
        rest = 0;
    }
    memmove(s->in, s->in + s->at, rest);
    flush(s);
    long count = read(STANDARD_INPUT, s->in + rest, BUFFER_BYTES - rest);
    s->at = 0;
    s->end = rest + (count > 0 ? (size_t)count : 0);
    return count > 0;
}

/* The place of the first newline, or the end: the lowest byte of a word that is 0 after the exclusive or. */
static inline size_t newline_from(const uint8_t *bytes, size_t at, size_t end)
{
    for (; at < end; at += WORD_BYTES) {
        uint64_t word;
        memcpy(&word, bytes + at, WORD_BYTES);
        word ^= 0x0A0A0A0A0A0A0A0A;
        uint64_t zeros = (word - 0x0101010101010101) & ~word & 0x8080808080808080;
        if (zeros) {
            at += (size_t)__builtin_ctzll(zeros) / 8;
            break;
        }
    }
    return at < end ? at : end;
}

/* The next line without its newline, NULL at the end; one of more than `most` bytes may come in part, still longer than `most`. */
static inline const uint8_t *next_line(struct stream *s, size_t most, size_t *length)
{
    size_t found;
    int more = 1;
    while ((found = newline_from(s->in, s->at, s->end)) == s->end && more)
        more = refill(s, most);
    if (found == s->end && found == s->at && !s->overlong)
        return NULL;
    const uint8_t *line = s->in + s->at;
    *length = s->overlong ? most + 1 : found - s->at;
    s->overlong = 0;
    s->at = found < s->end ? found + 1 : found;
    return line;
}

/* 10h and the digit's value; 0 for what is no digit. */
static const uint8_t digit_of[256] = {
    ['0'] = 0x10, ['1'] = 0x11, ['2'] = 0x12, ['3'] = 0x13, ['4'] = 0x14, ['5'] = 0x15, ['6'] = 0x16, ['7'] = 0x17,
    ['8'] = 0x18, ['9'] = 0x19, ['a'] = 0x1A, ['b'] = 0x1B, ['c'] = 0x1C, ['d'] = 0x1D, ['e'] = 0x1E, ['f'] = 0x1F,
};

/* 1 if all are digits, the number in `value`. */
static inline int read_hex(const uint8_t *at, size_t digits, uint64_t *value)
{
    uint64_t number = 0;
    uint32_t all = 0x10;
    for (size_t i = 0; i < digits; i++) {
        uint32_t digit = digit_of[at[i]];
        all &= digit;
        number = number << 4 | (digit & 0x0F);
    }
    *value = number;
    return all != 0;
}

/* At most eight digits, all at once in a word; writes eight bytes. */
static inline uint8_t *put_hex(uint8_t *to, uint32_t value, size_t digits)
{
    uint64_t word = value;
    word = (word | word << 16) & 0x0000FFFF0000FFFF;
    word = (word | word << 8) & 0x00FF00FF00FF00FF;
    word = (word | word << 4) & 0x0F0F0F0F0F0F0F0F;
    uint64_t letters = (word + 0x0606060606060606) >> 4 & 0x0101010101010101;
    word += 0x3030303030303030 + letters * ('a' - '9' - 1);
    word = __builtin_bswap64(word) >> 8 * (WORD_BYTES - digits);
    memcpy(to, &word, WORD_BYTES);
    return to + digits;
}

/* Any number of digits up to sixteen. */
static inline uint8_t *put_pins(uint8_t *to, uint64_t pins, size_t digits)
{
    if (digits <= WORD_BYTES)
        return put_hex(to, (uint32_t)pins, digits);
    return put_hex(put_hex(to, (uint32_t)(pins >> 32), digits - WORD_BYTES), (uint32_t)pins, WORD_BYTES);
}

static inline uint8_t *put_byte(uint8_t *to, uint8_t byte)
{
    *to = byte;
    return to + 1;
}

#define PUT_WORDS(to, words) ((uint8_t *)memcpy(to, words, sizeof(words) - 1) + sizeof(words) - 1)

#endif
