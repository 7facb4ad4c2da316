#include "losses.h"

#include "images.h"
#include "master.h"

enum { INPUT = 0x00 };

#define COUNT(table) ((uint32_t)(sizeof(table) / sizeof *(table)))

void losses_begin(struct losses *losses, uint64_t seed, uint32_t choice)
{
    losses->random = seed;
    losses->choice = choice;
    losses->at = losses->end = 0;
}

static uint32_t below(struct losses *losses, uint32_t limit)
{
    return random_below(&losses->random, limit);
}

static void put(struct losses *losses, uint32_t kind, uint64_t argument)
{
    losses->events[losses->end++] = (struct event){kind, argument};
}

static void put_command(struct losses *losses, uint32_t number)
{
    put(losses, GHIXRAMEL_START, 0);
    put(losses, GHIXRAMEL_BYTE, address_byte(losses->choice));
    put(losses, GHIXRAMEL_BYTE, number);
}

/* Every register of a group that decides on status bits, mostly so that all pins have one or none. */
static void put_write(struct losses *losses)
{
    const uint8_t groups[] = {part->mask, part->mask, part->mask, part->latch, part->edge, part->configuration, part->clear};
    const uint32_t any = below(losses, 256), values[] = {0x00, 0x00, 0xFF, any};
    uint32_t first = groups[below(losses, COUNT(groups))];
    put_command(losses, first);
    for (uint32_t port = 0; port < part->ports; port++)
        put(losses, GHIXRAMEL_BYTE, values[below(losses, COUNT(values))]);
    put(losses, GHIXRAMEL_STOP, 0);
}

static void put_fetch(struct losses *losses)
{
    put_command(losses, INPUT + below(losses, part->ports));
    put(losses, GHIXRAMEL_START, 0);
    put(losses, GHIXRAMEL_BYTE, address_byte(losses->choice) + 1);
    put(losses, GHIXRAMEL_FETCH, 0);
    put(losses, GHIXRAMEL_STOP, 0);
}

/* One in four is spoiled by another START. */
static void put_general_call(struct losses *losses)
{
    put(losses, GHIXRAMEL_START, 0);
    put(losses, GHIXRAMEL_BYTE, GENERAL_CALL);
    put(losses, GHIXRAMEL_BYTE, SOFTWARE_RESET);
    if (below(losses, 4) == 0)
        put(losses, GHIXRAMEL_START, 0);
    put(losses, GHIXRAMEL_STOP, 0);
}

static void put_act(struct losses *losses)
{
    switch (below(losses, 12)) {
    case 0:
        put(losses, GHIXRAMEL_RESET, 0);
        break;
    case 1:
        put(losses, GHIXRAMEL_STOP, 0);
        break;
    case 2:
        put_general_call(losses);
        break;
    case 3:
    case 4:
        put_fetch(losses);
        break;
    case 5:
    case 6:
    case 7:
        put_write(losses);
        break;
    default:
        put(losses, GHIXRAMEL_LEVELS, random_pins(&losses->random));
    }
}

struct event losses_next(struct losses *losses)
{
    if (losses->at == losses->end) {
        losses->at = losses->end = 0;
        put_act(losses);
    }
    return losses->events[losses->at++];
}
