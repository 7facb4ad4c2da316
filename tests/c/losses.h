/* Seeded traffic of a shelf that loses fibres while its host resets the device: much of it sets marks, some nearly does. */
#ifndef LOSSES_H
#define LOSSES_H

#include "mix.h"

enum { LOSSES_MOST_EVENTS = 12 };

/* About a device at an address choice, of the part that the checks are about. */
struct losses {
    uint64_t random;
    uint32_t choice;
    struct event events[LOSSES_MOST_EVENTS]; /* the act under way */
    uint32_t at, end;
};

void losses_begin(struct losses *losses, uint64_t seed, uint32_t choice);

struct event losses_next(struct losses *losses);

#endif
