/* Bursts beside single steps: every size, every way to be refused and at each place, and a list cut in any way. All of it without marks
 * and with them. */
#include "checks.h"
#include "event_bytes.h"
#include "guarded.h"
#include "host_checks.h"
#include "images.h"
#include "inventory.h"
#include "losses.h"
#include "master.h"
#include "mix.h"
#include "refused.h"

#include <libc.h>

enum { EVENT = GHIXRAMEL_EVENT_BYTES, MOST = GHIXRAMEL_MOST_EVENTS, GIVEN = 514, SMALL = 6, CUT_EVENTS = 1000, RANDOM_CUTS = 200 / ONE_IN, SEED = 5 };
enum { OLD = 0x3C, UNTOUCHED = 0x77 };

#define EACH(item, table) (uint32_t item = 0; item < sizeof(table) / sizeof *(table); item++)

/* The argument of a single step has `rest` as its upper half; of the 24-pin part it is 0 in every event that passes. */
struct whole_event {
    uint32_t kind, argument, rest;
};

static uint64_t whole_argument(struct whole_event event)
{
    return event.argument | (uint64_t)event.rest << 32;
}

/* What a burst is lent, and gives. */
struct burst {
    struct ghixramel device;
    struct ghixramel_marks marks;
    uint8_t answers[MOST_ROOM_BYTES];
    uint64_t done[1];
};

/* Without marks those of a burst are lent to nobody, and stay. */
static int with_marks;

/* Some set and some not, so that both a mark set and a mark cleared would show. */
static const struct ghixramel_marks whole_marks = {.set = 0x5A5A5A, .healthy = 0x33CC33};

/* What every burst begins with. */
static struct ghixramel_marks first_marks;

static struct whole_event list[CUT_EVENTS];
static uint8_t bytes[CUT_EVENTS * EVENT];

static void put_in_list(uint32_t place, struct whole_event event)
{
    list[place] = event;
    put_event(bytes + place * EVENT, event.kind, event.argument, event.rest);
}

static int is_ignored(uint32_t kind)
{
    return kind == GHIXRAMEL_START || kind == GHIXRAMEL_STOP || kind == GHIXRAMEL_RESET;
}

/* Arguments that are not looked at are anything; of the 24-pin part their third word is 0. */
static struct whole_event whole_of(struct event event, uint64_t *random)
{
    struct whole_event whole = {event.kind, (uint32_t)event.argument, (uint32_t)(event.argument >> 32)};
    if (is_ignored(event.kind)) {
        whole.argument = random_below(random, UINT32_MAX);
        whole.rest = part->largest_rest ? random_below(random, UINT32_MAX) : 0;
    }
    return whole;
}

static void make_list(uint32_t count, uint64_t seed, const struct ghixramel_image *image)
{
    struct mix mix;
    uint64_t random = seed;
    mix_begin(&mix, mix_of_part(), seed, (uint32_t)image->choice, image->pins[0]);
    for (uint32_t i = 0; i < count; i++)
        put_in_list(i, whole_of(mix_next(&mix), &random));
}

static void make_inventory_list(uint32_t count, uint64_t seed, const struct ghixramel_image *image)
{
    struct inventory inventory;
    uint64_t random = seed;
    inventory_begin(&inventory, seed, (uint32_t)image->choice);
    for (uint32_t i = 0; i < count; i++)
        put_in_list(i, whole_of(inventory_next(&inventory), &random));
}

static void make_losses_list(uint32_t count, uint64_t seed, const struct ghixramel_image *image)
{
    struct losses losses;
    uint64_t random = seed;
    losses_begin(&losses, seed, (uint32_t)image->choice);
    for (uint32_t i = 0; i < count; i++)
        put_in_list(i, whole_of(losses_next(&losses), &random));
}

static struct burst burst_on(const struct ghixramel *device)
{
    struct burst burst = {.device = *device, .marks = first_marks, .done = {UNTOUCHED}};
    memset(burst.answers, OLD, sizeof burst.answers);
    return burst;
}

static void single_step(struct ghixramel *device, struct ghixramel_marks *marks, struct whole_event event, uint8_t *answer)
{
    uint64_t argument = whole_argument(event);
    uint32_t refusal = with_marks ? guarded_marked_step(device, marks, event.kind, argument, answer)
                                  : guarded_step(device, event.kind, argument, answer);
    want("refusal of a single step", GHIXRAMEL_DONE, refusal);
}

static uint32_t one_burst(struct ghixramel *device, struct ghixramel_marks *marks, const uint8_t *events, uint64_t event_bytes,
                          uint64_t asked, uint8_t *answers, uint64_t answer_bytes, uint64_t done[1])
{
    if (with_marks)
        return guarded_marked_burst(device, marks, events, event_bytes, asked, answers, answer_bytes, done);
    return guarded_burst(device, events, event_bytes, asked, answers, answer_bytes, done);
}

/* The events from `first` on, one call each. */
static struct burst steps_on(const struct ghixramel *device, uint32_t first, uint32_t count)
{
    struct burst single = burst_on(device);
    for (uint32_t i = 0; i < count; i++)
        single_step(&single.device, &single.marks, list[first + i], single.answers + 2 * i);
    single.done[0] = count;
    return single;
}

static uint32_t run(struct burst *burst, uint64_t event_bytes, uint64_t asked, uint64_t answer_bytes)
{
    return one_burst(&burst->device, &burst->marks, bytes, event_bytes, asked, burst->answers, answer_bytes, burst->done);
}

static void want_same(const struct burst *wanted, const struct burst *got)
{
    want("done", wanted->done[0], got->done[0]);
    want("state differs", 0, memcmp(&wanted->device, &got->device, sizeof got->device) != 0);
    want("marks differ", 0, memcmp(&wanted->marks, &got->marks, sizeof got->marks) != 0);
    want("answers, or bytes past them, differ", 0, memcmp(wanted->answers, got->answers, sizeof got->answers) != 0);
}

static void want_burst(const struct ghixramel *device, uint32_t refusal, uint32_t done, uint64_t event_bytes, uint64_t asked,
                       uint64_t answer_bytes)
{
    struct burst single = steps_on(device, 0, done), burst = burst_on(device);
    want("refusal", refusal, run(&burst, event_bytes, asked, answer_bytes));
    want_same(&single, &burst);
}

/* Room to the byte, and room for more; events to the last, and some more that are not asked. */
static void every_size(void (*make)(uint32_t, uint64_t, const struct ghixramel_image *))
{
    uint64_t random = SEED;
    for (uint32_t size = 0; size <= MOST; size += ONE_IN) {
        struct ghixramel_image image = random_image(&random);
        struct ghixramel device = device_from(&image);
        make(GIVEN, SEED + size, &image);
        about("burst of events", size);
        want_burst(&device, GHIXRAMEL_DONE, size, size * EVENT, size, 2 * size);
        want_burst(&device, GHIXRAMEL_DONE, size, GIVEN * EVENT, size, 2 * size + 1 + random_below(&random, 2 * (GIVEN - MOST)));
    }
}

/* One event that is refused, behind `place` that are not; asked up to it, it is not looked at. */
static void refused_at(const struct ghixramel *device, uint32_t place, struct whole_event event, uint32_t refusal)
{
    struct whole_event kept = list[place];
    put_in_list(place, event);
    for (uint32_t asked = 0; asked <= SMALL; asked++) {
        uint32_t done = asked <= place ? asked : place;
        want_burst(device, asked <= place ? GHIXRAMEL_DONE : refusal, done, SMALL * EVENT, asked, 2 * asked);
    }
    put_in_list(place, kept);
}

/* Each byte of a word counts; kinds and arguments with a byte over another's would pass if that were cut off. */
static const uint32_t unknown_kinds[] = {6, 7, 0xFF, 0x100, 0x102, 0x10000, 0x1000001, 0x80000000, UINT32_MAX};
static const uint32_t rests[] = {1, 2, 3, 4, 0x80, 0x100, 0x10000, 0x1000000, 0x80000000, UINT32_MAX};
static const struct whole_event bad_arguments[] = {
    {GHIXRAMEL_BYTE, 0x100, 0},         {GHIXRAMEL_BYTE, 0x10000, 0},       {GHIXRAMEL_BYTE, 0x1000000, 0}, {GHIXRAMEL_BYTE, UINT32_MAX, 0},
    {GHIXRAMEL_FETCH, 2, 0},            {GHIXRAMEL_FETCH, 0x100, 0},        {GHIXRAMEL_FETCH, 0x1000001, 0}, {GHIXRAMEL_FETCH, UINT32_MAX, 0},
    {GHIXRAMEL_BYTE, 0, 1},             {GHIXRAMEL_FETCH, 1, 1},            {GHIXRAMEL_LEVELS, 0, 4},       {GHIXRAMEL_LEVELS, 1, 0x80000000},
};

/* Whether a third word passes with an argument that does: of the sister, where nobody looks at it or it has pins that there are. */
static int passes(uint32_t kind, uint32_t rest)
{
    return part->largest_rest != 0 && (is_ignored(kind) || (kind == GHIXRAMEL_LEVELS && rest <= part->largest_rest));
}

/* An event that is not refused, in the place of another. */
static void done_at(const struct ghixramel *device, uint32_t place, struct whole_event event)
{
    struct whole_event kept = list[place];
    put_in_list(place, event);
    want_burst(device, GHIXRAMEL_DONE, SMALL, SMALL * EVENT, SMALL, 2 * SMALL);
    put_in_list(place, kept);
}

static void third_words_at(const struct ghixramel *device, uint32_t place, uint32_t kind)
{
    for EACH (i, rests)
        for (uint32_t argument = 0; argument <= 1; argument++) {
            struct whole_event event = {kind, argument ? UINT32_MAX : 0, rests[i]};
            if (passes(kind, rests[i]))
                done_at(device, place, event);
            else
                refused_at(device, place, event, GHIXRAMEL_BAD_ARGUMENT);
        }
}

/* 1 comes before the third word and the argument; the third word before the argument has the same number. */
static void refusals_at(const struct ghixramel *device, uint32_t place)
{
    about("event refused at place", place);
    for EACH (i, unknown_kinds) {
        refused_at(device, place, (struct whole_event){unknown_kinds[i], 0, 0}, GHIXRAMEL_BAD_KIND);
        refused_at(device, place, (struct whole_event){unknown_kinds[i], UINT32_MAX, UINT32_MAX}, GHIXRAMEL_BAD_KIND);
    }
    for (uint32_t kind = 0; kind < KINDS; kind++)
        third_words_at(device, place, kind);
    for EACH (i, bad_arguments)
        refused_at(device, place, bad_arguments[i], GHIXRAMEL_BAD_ARGUMENT);
    uint64_t too_many = all_pins() + 1;
    refused_at(device, place, (struct whole_event){GHIXRAMEL_LEVELS, (uint32_t)too_many, (uint32_t)(too_many >> 32)}, GHIXRAMEL_BAD_ARGUMENT);
    done_at(device, place, (struct whole_event){GHIXRAMEL_LEVELS, (uint32_t)all_pins(), (uint32_t)(all_pins() >> 32)});
}

static void refused_in_the_middle(void (*make)(uint32_t, uint64_t, const struct ghixramel_image *))
{
    uint64_t random = SEED;
    struct ghixramel_image image = random_image(&random);
    for (image.bus = GHIXRAMEL_IDLE; image.bus <= GHIXRAMEL_TELLING; image.bus++) {
        struct ghixramel device = device_from(&image);
        make(SMALL, SEED + image.bus, &image);
        for (uint32_t place = 0; place < SMALL; place += ONE_IN)
            refusals_at(&device, place);
    }
}

/* All that was lent stays, done too; `run` sees that nothing of it changed, and this that it was 8. */
static void want_eight(const struct ghixramel *device, uint64_t event_bytes, uint64_t asked, uint64_t answer_bytes)
{
    struct burst burst = burst_on(device), untouched = burst;
    want("refusal", GHIXRAMEL_BAD_BURST, run(&burst, event_bytes, asked, answer_bytes));
    want_same(&untouched, &burst);
}

/* Each way alone, with room for everything else. */
static void ways_of_eight(const struct ghixramel *device)
{
    static const uint64_t far_too_many[] = {515, 1024, 0x100000000, 0x100000001, 0x8000000000000000, 0x8000000000000001, UINT64_MAX};
    for (uint64_t over = 1; over < EVENT; over++) {
        about("bytes past whole events", over);
        want_eight(device, over, 0, MOST_ROOM_BYTES);
        want_eight(device, EVENT + over, 0, MOST_ROOM_BYTES);
        want_eight(device, EVENT + over, 1, MOST_ROOM_BYTES);
        want_eight(device, MOST * EVENT + over, MOST, MOST_ROOM_BYTES);
    }
    for (uint64_t given = 0; given <= SMALL; given++) {
        about("more events asked than given", given);
        want_eight(device, given * EVENT, given + 1, MOST_ROOM_BYTES);
        want_eight(device, given * EVENT, MOST, MOST_ROOM_BYTES);
    }
    want_eight(device, (MOST - 1) * EVENT, MOST, MOST_ROOM_BYTES);
    about("more events asked than 512", 0);
    want_eight(device, GIVEN * EVENT, MOST + 1, MOST_ROOM_BYTES);
    want_eight(device, (MOST + 1) * EVENT, MOST + 1, MOST_ROOM_BYTES);
    want_eight(device, GIVEN * EVENT, GIVEN, MOST_ROOM_BYTES);
    for EACH (i, far_too_many) {
        about("far more events asked than given", far_too_many[i]);
        want_eight(device, GIVEN * EVENT, far_too_many[i], MOST_ROOM_BYTES);
        want_eight(device, 0, far_too_many[i], 0);
    }
    for (uint64_t asked = 1; asked <= MOST; asked += asked < SMALL ? 1 : SMALL) {
        about("room for answers, short by one or all, asked", asked);
        want_eight(device, GIVEN * EVENT, asked, 2 * asked - 1);
        want_eight(device, GIVEN * EVENT, asked, asked);
        want_eight(device, GIVEN * EVENT, asked, 0);
    }
    want_eight(device, GIVEN * EVENT, MOST, 2 * MOST - 1);
}

/* 8 comes before 3, 1 and 2, which the first event would be given. */
static void eights(void)
{
    struct ghixramel_image image = power_on_image(1, 0xF0F0F0);
    struct ghixramel whole = device_from(&image), broken = whole;
    broken.words[0] = UINT64_MAX;
    make_list(GIVEN, SEED, &image);
    ways_of_eight(&whole);
    ways_of_eight(&broken);
    about("512 asked of 514", 0);
    want_burst(&whole, GHIXRAMEL_DONE, MOST, GIVEN * EVENT, MOST, 2 * MOST);
    put_in_list(0, (struct whole_event){6, 0, 0});
    ways_of_eight(&whole);
    put_in_list(0, (struct whole_event){GHIXRAMEL_BYTE, 0, 1});
    ways_of_eight(&whole);
    ways_of_eight(&broken);
}

/* 3 comes before 1 and 2, and nothing is done; none asked, nothing is refused, and done is 0. */
static void want_three(const struct ghixramel *broken, struct whole_event first)
{
    struct whole_event kept = list[0];
    put_in_list(0, first);
    for (uint32_t asked = 0; asked <= SMALL; asked++)
        want_burst(broken, asked == 0 ? GHIXRAMEL_DONE : GHIXRAMEL_BAD_IMAGE, 0, SMALL * EVENT, asked, 2 * asked);
    want_burst(broken, GHIXRAMEL_DONE, 0, 0, 0, 0);
    put_in_list(0, kept);
}

static void broken_states(void)
{
    struct ghixramel_image image = power_on_image(3, 0x0F0F0F);
    struct ghixramel whole = device_from(&image);
    make_list(SMALL, SEED, &image);
    for (uint32_t word = 0; word < sizeof whole.words / sizeof *whole.words; word += ONE_IN) {
        struct ghixramel broken = whole;
        broken.words[word] |= (uint64_t)1 << 63;
        about("burst on a state with a broken word", word);
        for (uint32_t kind = 0; kind <= KINDS; kind++) {
            want_three(&broken, (struct whole_event){kind, 0, 0});
            want_three(&broken, (struct whole_event){kind, UINT32_MAX, 0});
            want_three(&broken, (struct whole_event){kind, 0, 1});
        }
    }
}

/* Either set with a pin that there is not, the state whole or broken too. */
static void broken_marks(void)
{
    struct ghixramel_image image = power_on_image(2, 0xF00F00);
    struct ghixramel whole = device_from(&image), broken = whole;
    broken.words[0] = UINT64_MAX;
    make_list(GIVEN, SEED, &image);
    for (uint32_t bit = part->pins; bit < 64; bit += ONE_IN)
        for (uint32_t sets = 1; sets <= 3; sets++) {
            first_marks.set = whole_marks.set | (uint64_t)(sets & 1) << bit;
            first_marks.healthy = whole_marks.healthy | (uint64_t)(sets >> 1) << bit;
            about("burst on marks with a broken bit", bit);
            for (uint32_t kind = 0; kind <= KINDS; kind++) {
                want_three(&whole, (struct whole_event){kind, 0, 0});
                want_three(&whole, (struct whole_event){kind, UINT32_MAX, 1});
            }
            want_three(&broken, (struct whole_event){GHIXRAMEL_START, 0, 0});
        }
    ways_of_eight(&whole);
    ways_of_eight(&broken);
    first_marks = whole_marks;
}

/* A whole list's answers, and state and marks after it. */
struct outcome {
    struct ghixramel device;
    struct ghixramel_marks marks;
    uint8_t answers[2 * CUT_EVENTS];
};

static struct outcome one_by_one(const struct ghixramel *device)
{
    struct outcome outcome = {.device = *device, .marks = first_marks};
    for (uint32_t i = 0; i < CUT_EVENTS; i++)
        single_step(&outcome.device, &outcome.marks, list[i], outcome.answers + 2 * i);
    return outcome;
}

/* Each burst of one size, or by chance below a limit that is not 0; it is lent the events left, as many as can be. */
static struct outcome in_bursts(const struct ghixramel *device, uint32_t size, uint32_t limit, uint64_t *random)
{
    struct outcome outcome = {.device = *device, .marks = first_marks};
    for (uint32_t at = 0; at < CUT_EVENTS;) {
        uint32_t left = CUT_EVENTS - at, asked = limit ? random_below(random, limit) : size;
        uint64_t done[1] = {UNTOUCHED};
        if (asked > left)
            asked = left;
        want("refusal", GHIXRAMEL_DONE,
             one_burst(&outcome.device, &outcome.marks, bytes + at * EVENT, (left < GIVEN ? left : GIVEN) * EVENT, asked,
                       outcome.answers + 2 * at, 2 * asked, done));
        want("done", asked, done[0]);
        at += asked;
    }
    return outcome;
}

static void want_outcome(const struct outcome *wanted, struct outcome got)
{
    want("state differs", 0, memcmp(&wanted->device, &got.device, sizeof got.device) != 0);
    want("marks differ", 0, memcmp(&wanted->marks, &got.marks, sizeof got.marks) != 0);
    want("answers differ", 0, memcmp(wanted->answers, got.answers, sizeof got.answers) != 0);
}

static void cuts(void (*make)(uint32_t, uint64_t, const struct ghixramel_image *))
{
    uint64_t random = SEED;
    struct ghixramel_image image = random_image(&random);
    struct ghixramel device = device_from(&image);
    make(CUT_EVENTS, SEED, &image);
    struct outcome wanted = one_by_one(&device);
    for (uint32_t size = 1; size <= MOST; size += ONE_IN) {
        about("list cut into bursts of", size);
        want_outcome(&wanted, in_bursts(&device, size, 0, &random));
    }
    for (uint32_t i = 0; i < RANDOM_CUTS; i++) {
        about("list cut by chance", i);
        want_outcome(&wanted, in_bursts(&device, 0, 2 + random_below(&random, MOST), &random));
    }
}

static void try_bursts(void (*make)(uint32_t, uint64_t, const struct ghixramel_image *))
{
    every_size(make);
    refused_in_the_middle(make);
    eights();
    broken_states();
    cuts(make_list);
    cuts(make_inventory_list);
}

/* With marks the traffic is one that sets them, and often. */
void check_bursts(void)
{
    first_marks = whole_marks;
    with_marks = 0;
    try_bursts(make_list);
    with_marks = 1;
    try_bursts(make_losses_list);
    cuts(make_losses_list);
    broken_marks();
}
