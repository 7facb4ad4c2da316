/* The planner: its refusals and their order, its bench points, and plans sent to a device over the bus. */
#include "checks.h"
#include "guarded.h"
#include "host_checks.h"
#include "images.h"
#include "master.h"
#include "mix.h"

#include <libc.h>

enum { MOST_SETTING = 16, RANDOM_PAIRS = 400 / ONE_IN, SEED = 3 };

struct setting {
    uint8_t bytes[MOST_SETTING];
};

struct plan {
    uint8_t pairs[MOST_LENT_BYTES];
    uint64_t writes[1];
};

/* Pins driven low and high, and pins that are inputs. */
struct drives {
    uint64_t low, high, inputs;
};

static uint64_t room_for_plan(void)
{
    return 2 * part->most_writes;
}

/* The bits that the register at a place has. */
static uint8_t bits_at(uint32_t place)
{
    return bits_of(setting_number(place));
}

/* Every pin of the other ports an input with output 1 and kinds 0; of a port with fewer pins, what it has. */
static struct setting one_port(uint32_t port, uint8_t output, uint8_t configuration, uint8_t port_kind, uint8_t pin_kind)
{
    struct setting setting = {0};
    for (uint32_t place = 0; place < 2 * part->ports; place++)
        setting.bytes[place] = bits_at(place);
    setting.bytes[port] &= output;
    setting.bytes[part->ports + port] &= configuration;
    setting.bytes[2 * part->ports] = (uint8_t)(port_kind << port);
    setting.bytes[2 * part->ports + 1 + port] = pin_kind & bits_at(2 * part->ports + 1 + port);
    return setting;
}

static struct setting random_setting(uint64_t *random)
{
    struct setting setting = {0};
    for (uint32_t place = 0; place < part->setting_bytes; place++)
        setting.bytes[place] = (uint8_t)random_below(random, 256) & bits_at(place);
    return setting;
}

static uint32_t plan(const struct setting *start, const struct setting *goal, uint64_t room, struct plan *plan)
{
    return guarded_plan(start->bytes, part->setting_bytes, goal->bytes, part->setting_bytes, plan->pairs, room, plan->writes);
}

static struct drives drives_of(const struct ghixramel *device)
{
    uint64_t drives[2] = {0};
    want("refusal of drives", GHIXRAMEL_DONE, guarded_drives(device, drives));
    struct ghixramel_image image = image_of(device);
    uint64_t inputs = 0;
    for (uint32_t port = 0; port < part->ports; port++)
        inputs |= (uint64_t)image.registers[part->configuration + port] << 8 * port;
    return (struct drives){drives[0], drives[1], inputs};
}

static uint64_t pins_that_differ(struct drives a, struct drives b)
{
    return (a.low ^ b.low) | (a.high ^ b.high);
}

static struct ghixramel device_set_to(const struct setting *setting)
{
    struct ghixramel device = device_with(0, 0x5A5A5A);
    for (uint32_t i = 0; i < part->setting_bytes; i++)
        write_register(&device, setting_number(i), setting->bytes[i]);
    return device;
}

/* Each write changes its register; a pin goes from its drive at the start to that at the goal at most once and through
 * no other; an input at both ends stays one; the goal is reached. */
static void run_plan(const struct setting *start, const struct setting *goal, const struct plan *plan)
{
    struct ghixramel device = device_set_to(start), end = device_set_to(goal);
    struct drives first = drives_of(&device), last = drives_of(&end);
    uint64_t moved = 0;
    for (uint64_t n = 0; n < plan->writes[0]; n++) {
        uint8_t number = plan->pairs[2 * n] & 0x7F, value = plan->pairs[2 * n + 1];
        want("write changes its register", 1, image_of(&device).registers[number] != value);
        write_register(&device, number, value);
        struct drives now = drives_of(&device);
        moved |= pins_that_differ(now, first);
        want("pins neither as at the start nor, once moved, as at the goal", 0, moved & pins_that_differ(now, last));
        want("inputs at both ends that are none", 0, first.inputs & last.inputs & ~now.inputs);
    }
    struct ghixramel_image reached = image_of(&device), wanted = image_of(&end);
    want("registers differ from the goal's", 0, memcmp(reached.registers, wanted.registers, sizeof reached.registers) != 0);
}

static void want_plan(const char *topic, const struct setting *start, const struct setting *goal)
{
    struct plan given = {0};
    about(topic, 0);
    want("refusal", GHIXRAMEL_DONE, plan(start, goal, room_for_plan(), &given));
    run_plan(start, goal, &given);
}

static void plan_points(uint32_t port)
{
    struct plan none = {0};
    struct setting start = one_port(port, 0xFF, 0xFE, 0, 0x00), goal = one_port(port, 0xFF, 0xFE, 1, 0x01);
    about("a port's first pin high at both ends while both kinds flip", port);
    want("refusal", GHIXRAMEL_NO_QUIET_WAY, plan(&start, &goal, room_for_plan(), &none));
    start = one_port(port, 0xFE, 0xFE, 0, 0x00), goal = one_port(port, 0xFE, 0xFE, 1, 0x01);
    want_plan("a port's first pin low at both ends while both kinds flip", &start, &goal);
    start = one_port(port, 0xFD, 0xFE, 0, 0x00), goal = one_port(port, 0xFE, 0xFD, 0, 0x00);
    want_plan("a port's first pin from high to input with output 0, its second the reverse", &start, &goal);
    start = one_port(port, 0xFF, 0xFF, 0, 0x00), goal = one_port(port, 0x00, 0x00, 1, 0xFF);
    want_plan("all pins of a port from input to low", &start, &goal);
}

/* Every pin from input to low and every kind changes. */
static void whole_points(void)
{
    struct setting start = {0}, goal = {0};
    for (uint32_t place = 0; place < part->setting_bytes; place++)
        (place < 2 * part->ports ? &start : &goal)->bytes[place] = bits_at(place);
    want_plan("all pins from input to low, all kinds changed", &start, &goal);
    want_plan("all pins from low to input, all kinds changed", &goal, &start);
}

static void no_writes(void)
{
    uint64_t random = SEED;
    for (uint32_t i = 0; i < part->setting_bytes; i++) {
        struct setting both = random_setting(&random);
        struct plan given = {0};
        about("start equal to goal", i);
        want("refusal", GHIXRAMEL_DONE, plan(&both, &both, room_for_plan(), &given));
        want("number of writes", 0, given.writes[0]);
    }
}

/* Room for the longest plan is asked of every plan, however short, and before a way is looked for. */
static void try_rooms(const struct setting *start, const struct setting *goal, uint32_t with_room)
{
    struct plan given = {0};
    for (uint64_t room = 0; room <= MOST_LENT_BYTES; room++) {
        about("plan buffer of bytes", room);
        want("refusal", room < room_for_plan() ? GHIXRAMEL_BUFFER_SMALL : with_room, plan(start, goal, room, &given));
    }
}

/* 5 comes before 6 and 4. */
static void want_bad_setting(const uint8_t *start, uint64_t start_bytes, const uint8_t *goal, uint64_t goal_bytes)
{
    struct plan none = {0};
    want("refusal", GHIXRAMEL_BAD_SETTING, guarded_plan(start, start_bytes, goal, goal_bytes, none.pairs, room_for_plan(), none.writes));
    want("refusal with a small buffer", GHIXRAMEL_BAD_SETTING,
         guarded_plan(start, start_bytes, goal, goal_bytes, none.pairs, room_for_plan() - 1, none.writes));
    want("refusal with no buffer", GHIXRAMEL_BAD_SETTING, guarded_plan(start, start_bytes, goal, goal_bytes, none.pairs, 0, none.writes));
}

/* Start and goal are a pair that no quiet way joins, so that 4 would be the next refusal. */
static void bad_settings(const struct setting *start, const struct setting *goal)
{
    uint8_t longer_start[MOST_LENT_BYTES] = {0}, longer_goal[MOST_LENT_BYTES] = {0};
    uint32_t whole = part->setting_bytes;
    memcpy(longer_start, start->bytes, whole);
    memcpy(longer_goal, goal->bytes, whole);
    for (uint64_t bytes = 0; bytes <= MOST_LENT_BYTES; bytes++) {
        if (bytes == whole)
            continue;
        about("setting of bytes", bytes);
        want_bad_setting(longer_start, bytes, goal->bytes, whole);
        want_bad_setting(start->bytes, whole, longer_goal, bytes);
        want_bad_setting(longer_start, bytes, longer_goal, bytes);
    }
    for (uint32_t place = 0; place < whole; place++)
        for (uint32_t value = 0; value <= UINT8_MAX; value++) {
            struct setting wrong_start = *start, wrong_goal = *goal;
            if ((value & (uint8_t)~bits_at(place)) == 0)
                continue;
            wrong_start.bytes[place] = wrong_goal.bytes[place] = (uint8_t)value;
            about("unused bits of a setting, place", place);
            want_bad_setting(wrong_start.bytes, whole, goal->bytes, whole);
            want_bad_setting(start->bytes, whole, wrong_goal.bytes, whole);
            want_bad_setting(wrong_start.bytes, whole, wrong_goal.bytes, whole);
        }
}

static void plan_refusals(void)
{
    struct setting high = one_port(0, 0xFF, 0xFE, 0, 0x00), flipped = one_port(0, 0xFF, 0xFE, 1, 0x01);
    struct setting inputs = one_port(0, 0xFF, 0xFF, 0, 0x00);
    try_rooms(&high, &flipped, GHIXRAMEL_NO_QUIET_WAY);
    try_rooms(&high, &high, GHIXRAMEL_DONE);
    try_rooms(&high, &inputs, GHIXRAMEL_DONE);
    bad_settings(&high, &flipped);
    bad_settings(&high, &high);
}

/* Some pairs have no quiet way; the model judges which. */
static void random_plans(void)
{
    uint64_t random = SEED;
    for (int i = 0; i < RANDOM_PAIRS; i++) {
        struct setting start = random_setting(&random), goal = random_setting(&random);
        struct plan given = {0};
        if (i % 2 == 0)
            goal.bytes[2 * part->ports] = start.bytes[2 * part->ports];
        about("random plan", (uint64_t)i);
        uint32_t refusal = plan(&start, &goal, room_for_plan(), &given);
        if (refusal == GHIXRAMEL_DONE)
            run_plan(&start, &goal, &given);
        else
            want("refusal", GHIXRAMEL_NO_QUIET_WAY, refusal);
    }
}

void check_plans(void)
{
    for (uint32_t port = 0; port < part->ports; port++)
        plan_points(port);
    whole_points();
    no_writes();
    plan_refusals();
    random_plans();
}
