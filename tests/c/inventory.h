/* Seeded traffic of a host that reads Device IDs: readings one after another, with another event here and there. */
#ifndef INVENTORY_H
#define INVENTORY_H

#include "mix.h"

/* About a device at an address choice, of the part that the checks are about. */
struct inventory {
    uint64_t random;
    uint32_t choice;
    uint32_t at; /* the reading's next event */
};

void inventory_begin(struct inventory *inventory, uint64_t seed, uint32_t choice);

struct event inventory_next(struct inventory *inventory);

#endif
