/* An image as the thirteen fields of a line, and marks as two. */
#ifndef IMAGE_LINES_H
#define IMAGE_LINES_H

#include "image_text.h"

#include <ghixramel.h>

/* What the thirteen fields, and the two, and the tab after each take. */
enum { IMAGE_BYTES = 369, MARKS_BYTES = 34 };

static inline const uint8_t *image_fields(const uint8_t *at, struct ghixramel_image *image)
{
    at = registers_field(at, image->registers);
    for (int i = 0; i < 4; i++)
        at = field(at, 16, &image->pins[i]);
    at = field(field(field(at, 2, &image->pointer), 2, &image->bus), 2, &image->choice);
    at = field(field(field(at, 16, &image->status), 2, &image->line), 2, &image->mode);
    return field(field(at, 8, &image->number), 2, &image->place);
}

static inline const uint8_t *marks_fields(const uint8_t *at, struct ghixramel_marks *marks)
{
    return field(field(at, 16, &marks->set), 16, &marks->healthy);
}

static inline uint8_t *put_number(uint8_t *to, uint64_t number)
{
    return put_pins(to, number, 16);
}

/* No tab after the last, here as below. */
static inline uint8_t *put_marks(uint8_t *to, const struct ghixramel_marks *marks)
{
    return put_number(put_byte(put_number(to, marks->set), '\t'), marks->healthy);
}

static inline uint8_t *put_image(uint8_t *to, const struct ghixramel_image *image)
{
    for (int i = 0; i < REGISTERS; i++)
        to = put_hex(to, image->registers[i], 2);
    for (int i = 0; i < 4; i++)
        to = put_number(put_byte(to, '\t'), image->pins[i]);
    to = put_hex(put_byte(to, '\t'), (uint32_t)image->pointer, 2);
    to = put_hex(put_byte(to, '\t'), (uint32_t)image->bus, 2);
    to = put_hex(put_byte(to, '\t'), (uint32_t)image->choice, 2);
    to = put_number(put_byte(to, '\t'), image->status);
    to = put_hex(put_byte(to, '\t'), (uint32_t)image->line, 2);
    to = put_hex(put_byte(to, '\t'), (uint32_t)image->mode, 2);
    to = put_hex(put_byte(to, '\t'), (uint32_t)image->number, 8);
    return put_hex(put_byte(to, '\t'), (uint32_t)image->place, 2);
}

#endif
