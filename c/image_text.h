/* The fields of an image's line. */
#ifndef IMAGE_TEXT_H
#define IMAGE_TEXT_H

#include "text.h"

enum { REGISTERS = 128 };

/* A field with its tab, or the line's end, after it; NULL once something was wrong. */
static inline const uint8_t *field(const uint8_t *at, size_t digits, uint64_t *value)
{
    if (!at || !read_hex(at, digits, value) || (at[digits] != '\t' && at[digits] != '\n'))
        return NULL;
    return at + digits + 1;
}

static inline const uint8_t *registers_field(const uint8_t *at, uint8_t registers[REGISTERS])
{
    uint64_t value;
    for (int i = 0; i < REGISTERS; i++, at += 2) {
        if (!read_hex(at, 2, &value))
            return NULL;
        registers[i] = (uint8_t)value;
    }
    return *at == '\t' ? at + 1 : NULL;
}

#endif
