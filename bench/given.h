/* What the library is timed and counted on: the same seeded events, bursts of them, and starts and goals each time. */
#ifndef GIVEN_H
#define GIVEN_H

#include "mix.h"

#include <ghixramel.h>

enum { EVENTS = 100000, PAIRS = 10000, SEED = 1, CHOICE = 2, LEVELS = 0x00F0F0, NUMBER = 0x123456 };

/* Events, and the same as a burst has them. */
struct traffic {
    struct event events[EVENTS];
    uint8_t bytes[EVENTS * GHIXRAMEL_EVENT_BYTES];
};

/* Of the 24-pin part, and of its sister. */
extern struct traffic traffic, traffic34;

void make_events(void);
void make_pairs(void);

/* How many events the burst has that begins at event `first`: as many as a call takes, the last fewer. */
size_t burst_at(size_t first);

/* The plan of one pair. */
uint32_t plan_pair(size_t place, uint8_t buffer[GHIXRAMEL_PLAN_BYTES], uint64_t writes[1]);

struct pair {
    uint8_t start[GHIXRAMEL_SETTING_BYTES], goal[GHIXRAMEL_SETTING_BYTES];
};

extern struct pair pairs[PAIRS];

#endif
