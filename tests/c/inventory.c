#include "inventory.h"

#include "images.h"
#include "master.h"

enum { OTHER_ONE_IN = 10 };

#define COUNT(table) ((uint32_t)(sizeof(table) / sizeof *(table)))

void inventory_begin(struct inventory *inventory, uint64_t seed, uint32_t choice)
{
    inventory->random = seed;
    inventory->choice = choice;
    inventory->at = 0;
}

static uint32_t below(struct inventory *inventory, uint32_t limit)
{
    return random_below(&inventory->random, limit);
}

/* Our address byte, its lowest bit either way. */
static uint32_t ours(struct inventory *inventory)
{
    return address_byte(inventory->choice) + below(inventory, 2);
}

/* Mostly one that some bus state acknowledges. */
static uint32_t other_byte(struct inventory *inventory)
{
    const uint32_t our_byte = ours(inventory), others = address_byte((inventory->choice + 1) % 4), any = below(inventory, 256);
    const uint32_t bytes[] = {ASK_FOR_ID, TELL_ID, GENERAL_CALL, SOFTWARE_RESET, our_byte, others, any};
    return bytes[below(inventory, COUNT(bytes))];
}

static struct event other_event(struct inventory *inventory)
{
    switch (below(inventory, 16)) {
    case 0:
        return (struct event){GHIXRAMEL_STOP, 0};
    case 1:
        return (struct event){GHIXRAMEL_RESET, 0};
    case 2:
    case 3:
        return (struct event){GHIXRAMEL_LEVELS, random_pins(&inventory->random)};
    case 4:
    case 5:
        return (struct event){GHIXRAMEL_FETCH, below(inventory, 2)};
    case 6:
    case 7:
    case 8:
        return (struct event){GHIXRAMEL_START, 0};
    default:
        return (struct event){GHIXRAMEL_BYTE, other_byte(inventory)};
    }
}

/* A reading of more bytes than a number has. */
struct event inventory_next(struct inventory *inventory)
{
    const struct event reading[] = {
        {GHIXRAMEL_START, 0}, {GHIXRAMEL_BYTE, ASK_FOR_ID}, {GHIXRAMEL_BYTE, ours(inventory)}, {GHIXRAMEL_START, 0},
        {GHIXRAMEL_BYTE, TELL_ID}, {GHIXRAMEL_FETCH, 1}, {GHIXRAMEL_FETCH, 1}, {GHIXRAMEL_FETCH, 1}, {GHIXRAMEL_FETCH, 1},
        {GHIXRAMEL_FETCH, 0}, {GHIXRAMEL_STOP, 0},
    };
    if (below(inventory, OTHER_ONE_IN) == 0)
        return other_event(inventory);
    struct event event = reading[inventory->at];
    inventory->at = (inventory->at + 1) % COUNT(reading);
    return event;
}
