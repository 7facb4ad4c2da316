#include "mix.h"

#include "peer.h"

enum { GENERAL_CALL = 0x00, SOFTWARE_RESET = 0x06, OWN_ADDRESS = 0x40, OTHER_ADDRESS = 0x50, RESERVED = 0x78, OVER_MAP = 0x80 };
enum { READS = 5, WITH_LEVELS = 3, TRANSACTIONS = 13 };

#define COUNT(table) ((uint32_t)(sizeof(table) / sizeof *(table)))

/* Hosts set outputs and interrupts most, and read inputs and interrupt status most; every group comes up. */
static const uint8_t written[] = {
    0x04, 0x04, 0x04, 0x04, 0x05, 0x06, 0x08, 0x0C, 0x0C, 0x0D, 0x0E, 0x40, 0x48, 0x48, 0x49, 0x4C, 0x50, 0x54, 0x54, 0x54,
    0x55, 0x56, 0x5C, 0x60, 0x60, 0x62, 0x64, 0x68, 0x68, 0x69, 0x6A, 0x70, 0x71, 0x74, 0x76, 0x00, 0x58, 0x6C,
};
static const uint8_t fetched[] = {
    0x00, 0x00, 0x00, 0x00, 0x01, 0x02, 0x58, 0x58, 0x58, 0x59, 0x6C, 0x6D, 0x04, 0x0C, 0x54, 0x48, 0x60, 0x68, 0x70, 0x5C, 0x76,
};

/* The same registers of the sister; those of its last two ports come up too. */
static const uint8_t written34[] = {
    0x05, 0x05, 0x05, 0x05, 0x06, 0x09, 0x0A, 0x0F, 0x0F, 0x10, 0x13, 0x30, 0x3A, 0x3A, 0x3E, 0x3F, 0x44, 0x49, 0x49, 0x49,
    0x4C, 0x4D, 0x53, 0x54, 0x54, 0x56, 0x5C, 0x5E, 0x5E, 0x5F, 0x62, 0x68, 0x6C, 0x6D, 0x6F, 0x00, 0x4E, 0x63,
};
static const uint8_t fetched34[] = {
    0x00, 0x00, 0x00, 0x00, 0x01, 0x04, 0x4E, 0x4E, 0x4E, 0x52, 0x63, 0x67, 0x05, 0x0F, 0x49, 0x3A, 0x54, 0x5E, 0x68, 0x53, 0x6F,
};

const struct mix_part mix24 = {written, fetched, COUNT(written), COUNT(fetched), 24};
const struct mix_part mix34 = {written34, fetched34, COUNT(written34), COUNT(fetched34), 34};

/* Mean 2.8: one register, or a group of three, or of six. */
static const uint8_t fetch_counts[] = {1, 1, 2, 3, 3, 3, 3, 3, 3, 6};
/* Mean 2.625. */
static const uint8_t data_counts[] = {1, 1, 1, 3, 3, 3, 3, 6};

uint32_t random_below(uint64_t *random, uint32_t limit)
{
    *random = *random * 6364136223846793005u + 1442695040888963407u;
    return (uint32_t)((*random >> 32) * limit >> 32);
}

static uint32_t below(struct mix *mix, uint32_t limit)
{
    return random_below(&mix->random, limit);
}

#define ANY_OF(mix, table) ((table)[below(mix, COUNT(table))])

static void put(struct mix *mix, uint32_t kind, uint64_t argument)
{
    mix->events[mix->end++] = (struct event){kind, argument};
}

static void put_levels(struct mix *mix)
{
    for (uint32_t moves = 1 + below(mix, 3); moves > 0; moves--)
        mix->levels ^= (uint64_t)1 << below(mix, mix->part->pins);
    put(mix, PEER_LEVELS, mix->levels);
}

static uint32_t address(struct mix *mix)
{
    return below(mix, 16) == 0 ? OTHER_ADDRESS : OWN_ADDRESS + 2 * mix->choice;
}

static void put_command(struct mix *mix, uint32_t number)
{
    uint32_t mode = below(mix, 8) == 0 ? OVER_MAP : 0;
    put(mix, PEER_BYTE, mode | (below(mix, 64) == 0 ? RESERVED : number));
}

static void put_read(struct mix *mix)
{
    uint32_t to = address(mix);
    put(mix, PEER_START, 0);
    put(mix, PEER_BYTE, to);
    put_command(mix, mix->part->fetched[below(mix, mix->part->fetched_count)]);
    put(mix, PEER_START, 0);
    put(mix, PEER_BYTE, to + 1);
    for (uint32_t left = ANY_OF(mix, fetch_counts); left > 0; left--)
        put(mix, PEER_FETCH, left > 1);
    put(mix, PEER_STOP, 0);
}

static void put_write(struct mix *mix)
{
    put(mix, PEER_START, 0);
    put(mix, PEER_BYTE, address(mix));
    put_command(mix, mix->part->written[below(mix, mix->part->written_count)]);
    for (uint32_t left = ANY_OF(mix, data_counts); left > 0; left--)
        put(mix, PEER_BYTE, below(mix, 256));
    put(mix, PEER_STOP, 0);
}

static void put_general_call(struct mix *mix)
{
    put(mix, PEER_START, 0);
    put(mix, PEER_BYTE, GENERAL_CALL);
    put(mix, PEER_BYTE, SOFTWARE_RESET);
    put(mix, PEER_STOP, 0);
}

static void put_transaction(struct mix *mix)
{
    if (below(mix, 128) == 0)
        put(mix, PEER_RESET, 0);
    if (below(mix, TRANSACTIONS) < WITH_LEVELS)
        put_levels(mix);
    if (below(mix, TRANSACTIONS) < READS)
        put_read(mix);
    else if (below(mix, 128) == 0)
        put_general_call(mix);
    else
        put_write(mix);
}

void mix_begin(struct mix *mix, const struct mix_part *part, uint64_t seed, uint32_t choice, uint64_t levels)
{
    mix->part = part;
    mix->random = seed;
    mix->choice = choice;
    mix->levels = levels;
    mix->at = mix->end = 0;
}

struct event mix_next(struct mix *mix)
{
    if (mix->at == mix->end) {
        mix->at = mix->end = 0;
        put_transaction(mix);
    }
    return mix->events[mix->at++];
}
