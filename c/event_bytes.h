/* An event as a burst has it. */
#ifndef EVENT_BYTES_H
#define EVENT_BYTES_H

#include <ghixramel.h>

static inline void put_word(uint8_t bytes[4], uint32_t word)
{
    for (int i = 0; i < 4; i++)
        bytes[i] = (uint8_t)(word >> 8 * i);
}

/* `rest` is the third word: of the 24-pin part 0 in every event that passes, of its sister the argument's upper half. */
static inline void put_event(uint8_t bytes[GHIXRAMEL_EVENT_BYTES], uint32_t kind, uint32_t argument, uint32_t rest)
{
    put_word(bytes, kind);
    put_word(bytes + 4, argument);
    put_word(bytes + 8, rest);
}

#endif
