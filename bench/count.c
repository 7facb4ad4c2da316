/* The library's calls, each on what it is timed on: every event a step, then all of them in bursts, of both parts, then with
 * loss marks, then every plan.
 * bench/count counts the instructions of one call at a time; which one it does not say here. */
#include "given.h"

#include <libc.h>

/* What a call refuses is counted too, so that none is taken for done. */
static uint32_t refusals;

typedef uint32_t step_call(struct ghixramel *, uint32_t, uint64_t, uint8_t *);
typedef uint32_t burst_call(struct ghixramel *, const uint8_t *, uint64_t, uint64_t, uint8_t *, uint64_t, uint64_t *);

static void all_steps(struct ghixramel device, const struct traffic *on, step_call *step)
{
    uint8_t answer[2] = {0};
    for (size_t i = 0; i < EVENTS; i++)
        refusals += step(&device, on->events[i].kind, on->events[i].argument, answer);
}

static void all_bursts(struct ghixramel device, const struct traffic *on, burst_call *burst)
{
    uint8_t answers[2 * GHIXRAMEL_MOST_EVENTS] = {0};
    uint64_t done[1] = {0};
    for (size_t first = 0; first < EVENTS; first += GHIXRAMEL_MOST_EVENTS)
        refusals += burst(&device, on->bytes + first * GHIXRAMEL_EVENT_BYTES, burst_at(first) * GHIXRAMEL_EVENT_BYTES, burst_at(first),
                          answers, sizeof answers, done);
}

/* The same with loss marks beside the device. */
static void all_marked_steps(struct ghixramel device, const struct traffic *on)
{
    struct ghixramel_marks marks = {0};
    uint8_t answer[2] = {0};
    refusals += ghixramel_marks_new(&marks, LEVELS);
    for (size_t i = 0; i < EVENTS; i++)
        refusals += ghixramel_marked_step(&device, &marks, on->events[i].kind, on->events[i].argument, answer);
}

static void all_marked_bursts(struct ghixramel device, const struct traffic *on)
{
    struct ghixramel_marks marks = {0};
    uint8_t answers[2 * GHIXRAMEL_MOST_EVENTS] = {0};
    uint64_t done[1] = {0};
    refusals += ghixramel_marks_new(&marks, LEVELS);
    for (size_t first = 0; first < EVENTS; first += GHIXRAMEL_MOST_EVENTS)
        refusals += ghixramel_marked_burst(&device, &marks, on->bytes + first * GHIXRAMEL_EVENT_BYTES,
                                           burst_at(first) * GHIXRAMEL_EVENT_BYTES, burst_at(first), answers, sizeof answers, done);
}

/* A pair without a quiet way is a plan too. */
static void all_plans(void)
{
    uint8_t buffer[GHIXRAMEL_PLAN_BYTES] = {0};
    uint64_t writes[1] = {0};
    for (size_t i = 0; i < PAIRS; i++)
        refusals += plan_pair(i, buffer, writes) % GHIXRAMEL_NO_QUIET_WAY;
}

int main(void)
{
    make_events();
    make_pairs();
    struct ghixramel device = {0}, sister = {0};
    refusals += ghixramel_power_on(&device, CHOICE, LEVELS, NUMBER) + ghixramel34_power_on(&sister, CHOICE, LEVELS, NUMBER);
    all_steps(device, &traffic, ghixramel_step);
    all_steps(sister, &traffic34, ghixramel34_step);
    all_bursts(device, &traffic, ghixramel_burst);
    all_bursts(sister, &traffic34, ghixramel34_burst);
    all_marked_steps(device, &traffic);
    all_marked_bursts(device, &traffic);
    all_plans();
    printf("%d\t%d\n", EVENTS, PAIRS);
    return refusals == 0 ? 0 : 1;
}
