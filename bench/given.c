#include "given.h"

#include "event_bytes.h"

#include <libc.h>

struct traffic traffic, traffic34;
struct pair pairs[PAIRS];

static void make_traffic(struct traffic *made, const struct mix_part *part)
{
    struct mix mix;
    mix_begin(&mix, part, SEED, CHOICE, LEVELS);
    for (size_t i = 0; i < EVENTS; i++) {
        struct event event = mix_next(&mix);
        made->events[i] = event;
        put_event(made->bytes + i * GHIXRAMEL_EVENT_BYTES, event.kind, (uint32_t)event.argument, (uint32_t)(event.argument >> 32));
    }
}

void make_events(void)
{
    make_traffic(&traffic, &mix24);
    make_traffic(&traffic34, &mix34);
}

size_t burst_at(size_t first)
{
    return EVENTS - first < GHIXRAMEL_MOST_EVENTS ? EVENTS - first : GHIXRAMEL_MOST_EVENTS;
}

static void make_setting(uint8_t setting[GHIXRAMEL_SETTING_BYTES], uint64_t *random)
{
    for (int i = 0; i < GHIXRAMEL_SETTING_BYTES; i++)
        setting[i] = (uint8_t)random_below(random, i == 6 ? 8 : 256);
}

/* One to three bits of the outputs, the configuration and the pins' kinds, now and then one of 5C. */
static void move_few_pins(uint8_t setting[GHIXRAMEL_SETTING_BYTES], uint64_t *random)
{
    for (uint32_t moves = 1 + random_below(random, 3); moves > 0; moves--) {
        uint32_t place = random_below(random, GHIXRAMEL_SETTING_BYTES);
        setting[place] ^= (uint8_t)(1u << random_below(random, place == 6 ? 3 : 8));
    }
}

/* Every other goal is random, the others are a few pins away from their start. */
void make_pairs(void)
{
    uint64_t random = SEED;
    for (size_t i = 0; i < PAIRS; i++) {
        make_setting(pairs[i].start, &random);
        make_setting(pairs[i].goal, &random);
        if (i % 2 == 0) {
            memcpy(pairs[i].goal, pairs[i].start, GHIXRAMEL_SETTING_BYTES);
            move_few_pins(pairs[i].goal, &random);
        }
    }
}

uint32_t plan_pair(size_t place, uint8_t buffer[GHIXRAMEL_PLAN_BYTES], uint64_t writes[1])
{
    return ghixramel_plan(pairs[place].start, GHIXRAMEL_SETTING_BYTES, pairs[place].goal, GHIXRAMEL_SETTING_BYTES, buffer,
                          GHIXRAMEL_PLAN_BYTES, writes);
}
