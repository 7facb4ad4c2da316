/* The library and the peer on the same events in one process, taking turns, best of seven each: single steps, then bursts against the
 * peer's single steps; then the planner, and single steps of the sister, which have no peer.
 * Prints lines `step`, `burst`, `plan`, `step34`: how many events or plans, and the nanoseconds of the library and of the peer for all
 * of them, 0 where there is no peer. */
#include "given.h"
#include "peer.h"

#include <libc.h>

enum { TIMES_OVER = 10, ROUNDS = 7 };

_Noreturn static void differ(const char *what, size_t place)
{
    dprintf(STANDARD_ERROR, "bench: %s differ at %lu\n", what, (unsigned long)place);
    exit(1);
}

static void same(uint64_t ours, uint64_t peers, const char *what, size_t place)
{
    if (ours != peers)
        differ(what, place);
}

static int64_t now(void)
{
    struct timespec time;
    clock_gettime(CLOCK_MONOTONIC, &time);
    return (int64_t)time.tv_sec * 1000000000 + time.tv_nsec;
}

/* A best of 0 is none yet. */
static void keep_best(int64_t *best, int64_t took)
{
    if (*best == 0 || took < *best)
        *best = took;
}

static void tell(const char *what, size_t count, int64_t ours, int64_t peers)
{
    printf("%s\t%lu\t%lu\t%lu\n", what, (unsigned long)count, (unsigned long)ours, (unsigned long)peers);
}

static void same_state(const struct ghixramel *ours, const struct peer *peer, size_t place)
{
    struct ghixramel_image image = {0};
    same(ghixramel_to_image(ours, &image), 0, "refusals of images", place);
    same(image.pins[0], peer->level, "levels", place);
    same(image.pins[1], peer->reference, "references", place);
    same(image.pins[2], peer->held, "held marks", place);
    same(image.pins[3], peer->edge, "edge marks", place);
    same(image.pointer, peer->pointer, "pointers", place);
    same(image.bus, peer->bus, "bus states", place);
    same(image.choice, peer->choice, "address choices", place);
    same(image.status, peer->status, "status sets", place);
    same(image.line, peer->line, "lines", place);
    same(image.mode, peer->mode, "modes", place);
    same(image.number, peer->number, "devices' numbers", place);
    same(image.place, peer->place, "places of the ID", place);
    if (memcmp(image.registers, peer->registers, sizeof peer->registers) != 0)
        differ("registers", place);
}

static void same_outputs(const struct ghixramel *ours, const struct peer *peer, size_t place)
{
    uint64_t our_drives[2] = {0}, peer_drive[2] = {0};
    uint8_t asserted[1] = {0};
    same(ghixramel_drives(ours, our_drives), 0, "refusals of drives", place);
    same(ghixramel_int(ours, asserted), 0, "refusals of INT", place);
    peer_drives(peer, peer_drive);
    same(our_drives[0], peer_drive[0], "pins driven low", place);
    same(our_drives[1], peer_drive[1], "pins driven high", place);
    same(asserted[0], (uint64_t)peer_int(peer), "INT lines", place);
}

/* Untimed: answers, state and outputs after every event. */
static void check_steps(void)
{
    struct ghixramel ours = {0};
    struct peer peer = {0};
    same(ghixramel_power_on(&ours, CHOICE, LEVELS, NUMBER), peer_power_on(&peer, CHOICE, LEVELS, NUMBER), "devices made", 0);
    for (size_t i = 0; i < EVENTS; i++) {
        uint8_t our_answer[2] = {0, 0}, peer_answer[2] = {0, 0};
        uint32_t refused = ghixramel_step(&ours, traffic.events[i].kind, traffic.events[i].argument, our_answer);
        same(refused, peer_step(&peer, traffic.events[i].kind, traffic.events[i].argument, peer_answer), "refusals", i);
        same(our_answer[0], peer_answer[0], "answers", i);
        same(our_answer[1], peer_answer[1], "bytes read", i);
        same_state(&ours, &peer, i);
        same_outputs(&ours, &peer, i);
    }
}

/* Answers are summed, so that each is used. */
static int64_t time_library(struct ghixramel *device, uint64_t *sum)
{
    uint8_t answer[2] = {0, 0};
    ghixramel_power_on(device, CHOICE, LEVELS, NUMBER);
    int64_t began = now();
    for (int times = 0; times < TIMES_OVER; times++)
        for (size_t i = 0; i < EVENTS; i++) {
            *sum += ghixramel_step(device, traffic.events[i].kind, traffic.events[i].argument, answer);
            *sum += answer[0] + answer[1];
        }
    return now() - began;
}

static int64_t time_peer(struct peer *device, uint64_t *sum)
{
    uint8_t answer[2] = {0, 0};
    peer_power_on(device, CHOICE, LEVELS, NUMBER);
    int64_t began = now();
    for (int times = 0; times < TIMES_OVER; times++)
        for (size_t i = 0; i < EVENTS; i++) {
            *sum += peer_step(device, traffic.events[i].kind, traffic.events[i].argument, answer);
            *sum += answer[0] + answer[1];
        }
    return now() - began;
}

static void bench_steps(void)
{
    struct ghixramel ours = {0};
    struct peer peer = {0};
    int64_t our_best = 0, peer_best = 0;
    for (size_t round = 0; round < ROUNDS; round++) {
        uint64_t our_sum = 0, peer_sum = 0;
        keep_best(&our_best, time_library(&ours, &our_sum));
        keep_best(&peer_best, time_peer(&peer, &peer_sum));
        same(our_sum, peer_sum, "sums of answers", round);
        same_state(&ours, &peer, round);
    }
    tell("step", EVENTS * TIMES_OVER, our_best, peer_best);
}

/* One way to go over all events in bursts of 512, the last shorter: answers to the burst's events, from the first on. */
typedef uint32_t run_burst(void *device, size_t first, size_t count, uint8_t answers[2 * GHIXRAMEL_MOST_EVENTS]);

static uint32_t burst_of_library(void *device, size_t first, size_t count, uint8_t answers[2 * GHIXRAMEL_MOST_EVENTS])
{
    uint64_t done[1] = {0};
    uint32_t refused = ghixramel_burst(device, traffic.bytes + first * GHIXRAMEL_EVENT_BYTES, count * GHIXRAMEL_EVENT_BYTES, count, answers,
                                       2 * GHIXRAMEL_MOST_EVENTS, done);
    return refused + (uint32_t)(count - done[0]);
}

/* The first refusal ends it, as in the library. */
static uint32_t burst_of_peer(void *device, size_t first, size_t count, uint8_t answers[2 * GHIXRAMEL_MOST_EVENTS])
{
    uint32_t refused = 0;
    for (size_t i = 0; i < count && refused == 0; i++)
        refused = peer_step(device, traffic.events[first + i].kind, traffic.events[first + i].argument, answers + 2 * i);
    return refused;
}

/* Untimed: answers and state after every burst. */
static void check_bursts(void)
{
    struct ghixramel ours = {0};
    struct peer peer = {0};
    same(ghixramel_power_on(&ours, CHOICE, LEVELS, NUMBER), peer_power_on(&peer, CHOICE, LEVELS, NUMBER), "devices made", 0);
    for (size_t first = 0; first < EVENTS; first += GHIXRAMEL_MOST_EVENTS) {
        uint8_t our_answers[2 * GHIXRAMEL_MOST_EVENTS] = {0}, peer_answers[2 * GHIXRAMEL_MOST_EVENTS] = {0};
        same(burst_of_library(&ours, first, burst_at(first), our_answers), 0, "bursts and their events", first);
        same(burst_of_peer(&peer, first, burst_at(first), peer_answers), 0, "steps and their events", first);
        if (memcmp(our_answers, peer_answers, sizeof our_answers) != 0)
            differ("answers to a burst", first);
        same_state(&ours, &peer, first);
    }
}

/* The bursts alone are timed; between them all bytes of the answers are summed, so that each is used. */
static int64_t time_bursts(run_burst *run, void *device, uint64_t *sum)
{
    uint8_t answers[2 * GHIXRAMEL_MOST_EVENTS] = {0};
    int64_t took = 0;
    for (int times = 0; times < TIMES_OVER; times++)
        for (size_t first = 0; first < EVENTS; first += GHIXRAMEL_MOST_EVENTS) {
            int64_t began = now();
            *sum += run(device, first, burst_at(first), answers);
            took += now() - began;
            for (size_t i = 0; i < sizeof answers; i++)
                *sum += answers[i];
        }
    return took;
}

static void bench_bursts(void)
{
    struct ghixramel ours = {0};
    struct peer peer = {0};
    int64_t our_best = 0, peer_best = 0;
    for (size_t round = 0; round < ROUNDS; round++) {
        uint64_t our_sum = 0, peer_sum = 0;
        ghixramel_power_on(&ours, CHOICE, LEVELS, NUMBER);
        peer_power_on(&peer, CHOICE, LEVELS, NUMBER);
        keep_best(&our_best, time_bursts(burst_of_library, &ours, &our_sum));
        keep_best(&peer_best, time_bursts(burst_of_peer, &peer, &peer_sum));
        same(our_sum, peer_sum, "sums of answers to bursts", round);
        same_state(&ours, &peer, round);
    }
    tell("burst", EVENTS * TIMES_OVER, our_best, peer_best);
}

static void write_setting(uint8_t setting[GHIXRAMEL_SETTING_BYTES], uint8_t number, uint8_t value)
{
    static const uint8_t numbers[GHIXRAMEL_SETTING_BYTES] = {0x04, 0x05, 0x06, 0x0C, 0x0D, 0x0E, 0x5C, 0x70, 0x71, 0x72};
    for (int i = 0; i < GHIXRAMEL_SETTING_BYTES; i++)
        if (numbers[i] == number)
            setting[i] = value;
}

/* Untimed: each plan leads to its goal, or there is none. That it is quiet is proved, and judged by the model elsewhere. */
static void check_plans(void)
{
    for (size_t i = 0; i < PAIRS; i++) {
        uint8_t buffer[GHIXRAMEL_PLAN_BYTES] = {0}, reached[GHIXRAMEL_SETTING_BYTES];
        uint64_t writes[1] = {0};
        uint32_t refused = plan_pair(i, buffer, writes);
        if (refused == GHIXRAMEL_NO_QUIET_WAY)
            continue;
        same(refused, GHIXRAMEL_DONE, "refusals of plans", i);
        memcpy(reached, pairs[i].start, sizeof reached);
        for (uint64_t n = 0; n < writes[0]; n++)
            write_setting(reached, buffer[2 * n], buffer[2 * n + 1]);
        if (memcmp(reached, pairs[i].goal, sizeof reached) != 0)
            differ("goal and setting reached", i);
    }
}

static int64_t time_plans(uint64_t *sum)
{
    uint8_t buffer[GHIXRAMEL_PLAN_BYTES] = {0};
    uint64_t writes[1] = {0};
    int64_t began = now();
    for (size_t i = 0; i < PAIRS; i++) {
        *sum += plan_pair(i, buffer, writes);
        *sum += writes[0] + buffer[0];
    }
    return now() - began;
}

static void bench_plans(void)
{
    int64_t best = 0;
    uint64_t sums[ROUNDS] = {0};
    for (size_t round = 0; round < ROUNDS; round++) {
        keep_best(&best, time_plans(&sums[round]));
        same(sums[round], sums[0], "sums of plans", round);
    }
    tell("plan", PAIRS, best, 0);
}

/* Each refused event is in the sum, and none is to be. */
static int64_t time_sister(struct ghixramel *device, uint64_t *refused)
{
    uint8_t answer[2] = {0, 0};
    ghixramel34_power_on(device, CHOICE, LEVELS, NUMBER);
    int64_t began = now();
    for (int times = 0; times < TIMES_OVER; times++)
        for (size_t i = 0; i < EVENTS; i++)
            *refused += ghixramel34_step(device, traffic34.events[i].kind, traffic34.events[i].argument, answer);
    return now() - began;
}

static void bench_sister(void)
{
    struct ghixramel device = {0};
    int64_t best = 0;
    uint64_t refused = 0;
    for (size_t round = 0; round < ROUNDS; round++)
        keep_best(&best, time_sister(&device, &refused));
    same(refused, 0, "refusals of the sister", 0);
    tell("step34", EVENTS * TIMES_OVER, best, 0);
}

/* The mix, so that a reader sees what was timed. */
static void tell_mix(void)
{
    uint32_t counts[6] = {0};
    for (size_t i = 0; i < EVENTS; i++)
        counts[traffic.events[i].kind]++;
    dprintf(STANDARD_ERROR, "bench: of %d events %u START, %u STOP, %u bytes, %u fetches, %u levels, %u resets\n", EVENTS, counts[0],
            counts[1], counts[2], counts[3], counts[4], counts[5]);
}

int main(void)
{
    make_events();
    tell_mix();
    check_steps();
    bench_steps();
    check_bursts();
    bench_bursts();
    make_pairs();
    check_plans();
    bench_plans();
    bench_sister();
    return 0;
}
