/* The peer's answers as the programs write them. */
#ifndef PEER_TEXT_H
#define PEER_TEXT_H

#include "peer.h"
#include "text.h"

/* The digits of levels and drives: of the sister, which only the library knows, its tests have nine. */
#ifndef PEER_DIGITS
#define PEER_DIGITS 6
#endif

enum { UNREADABLE = 7, MOST_ANSWER_BYTES = 32 };

/* A refusal's number has at most two digits. */
static inline uint8_t *put_decimal(uint8_t *to, uint32_t number)
{
    if (number >= 10)
        to = put_byte(to, (uint8_t)('0' + number / 10));
    return put_byte(to, (uint8_t)('0' + number % 10));
}

static inline uint8_t *put_refused(uint8_t *to, uint32_t number)
{
    return put_decimal(PUT_WORDS(to, "refused\t"), number);
}

static inline uint8_t *put_refusal(uint8_t *to, uint32_t number)
{
    return put_byte(put_refused(to, number), '\n');
}

static inline uint8_t *put_answer(uint8_t *to, const uint8_t answer[2])
{
    static const char words[3][4] = {{'-', 0, 0, 0}, {'a', 'c', 'k', 0}, {'n', 'a', 'k', 0}};
    if (answer[0] == PEER_READ)
        return put_hex(to, answer[1], 2);
    memcpy(to, words[answer[0]], 4);
    return to + (answer[0] == PEER_NOTHING ? 1 : 3);
}

/* The answer, the INT line's level, the pins driven low, the pins driven high; no newline. */
static inline uint8_t *put_outputs(uint8_t *to, const struct peer *device, const uint8_t answer[2])
{
    uint64_t drives[2] = {0};
    peer_drives(device, drives);
    to = put_byte(put_answer(to, answer), '\t');
    to = put_byte(to, peer_int(device) ? '0' : '1');
    to = put_pins(put_byte(to, '\t'), drives[0], PEER_DIGITS);
    return put_pins(put_byte(to, '\t'), drives[1], PEER_DIGITS);
}

#endif
