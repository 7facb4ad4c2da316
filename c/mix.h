/* Seeded bus traffic as a shelf has it: transactions one after another, pin levels and resets between them.
 *
 * Per hundred events: 18 START, 13 STOP, 52 bytes, 14 fetches, 3 levels, and one hardware reset in a thousand. That is
 * 13 transactions: 5 register reads (START, address, command, START, address, 2.8 fetches, STOP) and 8 writes (START,
 * address, command, 2.625 bytes of data, STOP). One transaction in 16 is another device's, one in 64 names a reserved
 * register, one in 8 steps over the whole map, one write in 128 is the general call that resets. */
#ifndef MIX_H
#define MIX_H

#include <stddef.h>
#include <stdint.h>

struct event {
    uint32_t kind; /* as peer.h numbers them, and ghixramel.h */
    uint64_t argument;
};

/* The registers that hosts write and fetch, the likely ones more than once, and how many pins there are to move. */
struct mix_part {
    const uint8_t *written, *fetched;
    uint32_t written_count, fetched_count, pins;
};

extern const struct mix_part mix24, mix34;

enum { MIX_MOST_EVENTS = 16 };

struct mix {
    const struct mix_part *part;
    uint64_t random, levels;
    uint32_t choice;
    struct event events[MIX_MOST_EVENTS]; /* the transaction under way */
    size_t at, end;
};

void mix_begin(struct mix *mix, const struct mix_part *part, uint64_t seed, uint32_t choice, uint64_t levels);

struct event mix_next(struct mix *mix);

/* The next number of a seeded sequence, below `limit`; from its upper half, so any limit below 2^32 will do. */
uint32_t random_below(uint64_t *random, uint32_t limit);

#endif
