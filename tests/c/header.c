/* The header as C99, C11 and C++ take it; linked, so that its names are the library's in each of them. */
#include <ghixramel.h>

/* By their types, so that a length, levels or a number of 32 bits on a processor of 32 bits stops the compiler. */
static uint32_t (*const power_on)(struct ghixramel *, uint32_t, uint64_t, uint64_t) = ghixramel_power_on;
static uint32_t (*const plan)(const uint8_t *, uint64_t, const uint8_t *, uint64_t, uint8_t *, uint64_t, uint64_t *) = ghixramel_plan;
static uint32_t (*const burst)(struct ghixramel *, const uint8_t *, uint64_t, uint64_t, uint8_t *, uint64_t, uint64_t *) = ghixramel_burst;
static uint32_t (*const marks_new)(struct ghixramel_marks *, uint64_t) = ghixramel_marks_new;
static uint32_t (*const marked_step)(struct ghixramel *, struct ghixramel_marks *, uint32_t, uint64_t, uint8_t *) = ghixramel_marked_step;
static uint32_t (*const marked_burst)(struct ghixramel *, struct ghixramel_marks *, const uint8_t *, uint64_t, uint64_t, uint8_t *,
                                      uint64_t, uint64_t *) = ghixramel_marked_burst;
static uint32_t (*const compare)(const uint8_t *, uint64_t, const uint8_t *, uint64_t, uint8_t *, uint64_t *) = ghixramel_compare;

static uint32_t (*const power_on34)(struct ghixramel *, uint32_t, uint64_t, uint64_t) = ghixramel34_power_on;
static uint32_t (*const plan34)(const uint8_t *, uint64_t, const uint8_t *, uint64_t, uint8_t *, uint64_t, uint64_t *) = ghixramel34_plan;
static uint32_t (*const burst34)(struct ghixramel *, const uint8_t *, uint64_t, uint64_t, uint8_t *, uint64_t, uint64_t *) =
    ghixramel34_burst;
static uint32_t (*const marks_new34)(struct ghixramel_marks *, uint64_t) = ghixramel34_marks_new;
static uint32_t (*const marked_step34)(struct ghixramel *, struct ghixramel_marks *, uint32_t, uint64_t, uint8_t *) =
    ghixramel34_marked_step;
static uint32_t (*const marked_burst34)(struct ghixramel *, struct ghixramel_marks *, const uint8_t *, uint64_t, uint64_t, uint8_t *,
                                        uint64_t, uint64_t *) = ghixramel34_marked_burst;

static int views(const struct ghixramel *device)
{
    uint64_t drives[2] = {0};
    uint8_t asserted[1] = {0}, shown[1] = {0};
    return ghixramel_drives(device, drives) == GHIXRAMEL_DONE && ghixramel_int(device, asserted) == GHIXRAMEL_DONE &&
           ghixramel_show(device, 0x03, shown) == GHIXRAMEL_BAD_ARGUMENT;
}

static int done_in_a_burst(struct ghixramel *device)
{
    uint8_t events[2 * GHIXRAMEL_EVENT_BYTES] = {GHIXRAMEL_START, 0, 0, 0, 0, 0, 0, 0, 0, 0, 0, 0, GHIXRAMEL_BYTE, 0, 0, 0, 0x46};
    uint8_t answers[2 * 2] = {0};
    uint64_t done[1] = {0};
    if (burst(device, events, sizeof events, 2, answers, sizeof answers, done) != GHIXRAMEL_DONE || done[0] != 2)
        return 0;
    if (answers[0] != GHIXRAMEL_NOTHING || answers[2] != GHIXRAMEL_ACK)
        return 0;
    return burst(device, events, sizeof events, GHIXRAMEL_MOST_EVENTS + 1, answers, sizeof answers, done) == GHIXRAMEL_BAD_BURST;
}

/* The last pin is signed off while it is at its healthy level, and not before. */
static int watched(struct ghixramel *device)
{
    struct ghixramel_marks marks = {0, 0};
    uint8_t events[GHIXRAMEL_EVENT_BYTES] = {GHIXRAMEL_LEVELS, 0, 0, 0, 0, 0, 0x80}, answer[2] = {0};
    uint64_t done[1] = {0};
    if (marks_new(&marks, 0x1000000) != GHIXRAMEL_BAD_ARGUMENT || marks_new(&marks, 0x800000) != GHIXRAMEL_DONE)
        return 0;
    if (marks.set != 0xFFFFFF || marks.healthy != 0x800000)
        return 0;
    if (marked_step(device, &marks, GHIXRAMEL_LEVELS, 0, answer) != GHIXRAMEL_DONE || answer[0] != GHIXRAMEL_NOTHING)
        return 0;
    if (ghixramel_sign_off(device, &marks, 24) != GHIXRAMEL_BAD_ARGUMENT || ghixramel_sign_off(device, &marks, 23) != GHIXRAMEL_NOT_HEALTHY)
        return 0;
    if (marked_burst(device, &marks, events, sizeof events, 1, answer, sizeof answer, done) != GHIXRAMEL_DONE || done[0] != 1)
        return 0;
    return ghixramel_sign_off(device, &marks, 23) == GHIXRAMEL_DONE && marks.set == 0x7FFFFF;
}

static int carried(struct ghixramel *device)
{
    struct ghixramel_image image = {{0}, {0}, 0, 0, 0, 0, 0, 0, 0, 0};
    if (ghixramel_to_image(device, &image) != GHIXRAMEL_DONE || image.choice != 3 || image.registers[0x54] != 0xFF)
        return 0;
    if (image.status != 0 || image.line != 1 || image.mode != 0 || ghixramel_from_image(device, &image) != GHIXRAMEL_DONE)
        return 0;
    if (image.number != GHIXRAMEL_LARGEST_NUMBER || image.place != 0)
        return 0;
    image.line = 0;
    if (ghixramel_from_image(device, &image) != GHIXRAMEL_BAD_IMAGE)
        return 0;
    image.line = 1;
    image.mode = 2;
    if (ghixramel_from_image(device, &image) != GHIXRAMEL_BAD_IMAGE)
        return 0;
    image.mode = 1;
    if (ghixramel_from_image(device, &image) != GHIXRAMEL_DONE)
        return 0;
    image.number = GHIXRAMEL_LARGEST_NUMBER + 1;
    if (ghixramel_from_image(device, &image) != GHIXRAMEL_BAD_IMAGE)
        return 0;
    image.number = 0;
    image.place = GHIXRAMEL_NUMBER_BYTES;
    if (ghixramel_from_image(device, &image) != GHIXRAMEL_BAD_IMAGE)
        return 0;
    image.place = GHIXRAMEL_NUMBER_BYTES - 1;
    image.bus = GHIXRAMEL_TELLING;
    if (ghixramel_from_image(device, &image) != GHIXRAMEL_DONE)
        return 0;
    image.choice = 4;
    return ghixramel_from_image(device, &image) == GHIXRAMEL_BAD_IMAGE;
}

static int planned(void)
{
    uint8_t start[GHIXRAMEL_SETTING_BYTES] = {0}, goal[GHIXRAMEL_SETTING_BYTES] = {0}, buffer[GHIXRAMEL_PLAN_BYTES] = {0};
    uint64_t writes[1] = {1};
    return plan(start, sizeof start, goal, sizeof goal, buffer, sizeof buffer, writes) == GHIXRAMEL_DONE && writes[0] == 0;
}

/* Events before any device expect refusal 7, so the last line departs; texts that are cut before it have the other verdicts. */
static int compared(void)
{
    const uint8_t events[] = "start\nstop\n", answers[] = "answer\tint\tlow\thigh\nrefused\t7\nrefused\t8\n";
    const uint64_t two_events = sizeof events - 1, one_event = sizeof "start";
    const uint64_t three_lines = sizeof answers - 1, two_lines = three_lines - sizeof "refused\t8";
    uint8_t verdict[1] = {0};
    uint64_t part[2] = {0, 0};
    if (compare(events, two_events, answers, three_lines, verdict, part) != GHIXRAMEL_DONE || verdict[0] != GHIXRAMEL_DEPARTS)
        return 0;
    if (part[0] != two_lines || part[1] != sizeof "refused\t8" - 1)
        return 0;
    if (compare(events, two_events, answers, two_lines, verdict, part) != GHIXRAMEL_DONE || verdict[0] != GHIXRAMEL_ENDS_EARLY)
        return 0;
    if (compare(events, one_event, answers, three_lines, verdict, part) != GHIXRAMEL_DONE || verdict[0] != GHIXRAMEL_LEFT_OVER)
        return 0;
    return compare(events, one_event, answers, two_lines, verdict, part) == GHIXRAMEL_DONE && verdict[0] == GHIXRAMEL_AGREES;
}

/* The sister's calls on the same structs: 33 is its last pin; each part's calls refuse the other's state. */
static int sister(void)
{
    struct ghixramel device = {{0}};
    struct ghixramel_marks marks = {0, 0};
    struct ghixramel_image image = {{0}, {0}, 0, 0, 0, 0, 0, 0, 0, 0};
    uint8_t answer[2] = {0}, asserted[1] = {0}, shown[1] = {0}, answers[2] = {0};
    uint8_t levels[GHIXRAMEL_EVENT_BYTES] = {GHIXRAMEL_LEVELS, 0, 0, 0, 0, 0, 0, 0, 2, 0, 0, 0};
    uint8_t ends[GHIXRAMEL34_SETTING_BYTES] = {0}, buffer[GHIXRAMEL34_PLAN_BYTES] = {0};
    uint64_t done[1] = {0}, drives[2] = {0}, writes[1] = {1};
    if (sizeof ends != 16 || GHIXRAMEL34_MOST_WRITES != 26 || sizeof buffer != 52)
        return 0;
    if (power_on34(&device, 3, (uint64_t)1 << 34, 0) != GHIXRAMEL_BAD_ARGUMENT)
        return 0;
    if (power_on34(&device, 3, 0, GHIXRAMEL_LARGEST_NUMBER + 1) != GHIXRAMEL_BAD_ARGUMENT)
        return 0;
    if (power_on34(&device, 3, 0, GHIXRAMEL_LARGEST_NUMBER) != GHIXRAMEL_DONE)
        return 0;
    if (burst34(&device, levels, sizeof levels, 1, answers, sizeof answers, done) != GHIXRAMEL_DONE || done[0] != 1)
        return 0;
    if (ghixramel34_to_image(&device, &image) != GHIXRAMEL_DONE || image.pins[0] != (uint64_t)2 << 32 || image.registers[0x4D] != 0x03)
        return 0;
    if (image.number != GHIXRAMEL_LARGEST_NUMBER || image.place != 0)
        return 0;
    if (ghixramel34_drives(&device, drives) != GHIXRAMEL_DONE || ghixramel34_int(&device, asserted) != GHIXRAMEL_DONE || asserted[0] != 0)
        return 0;
    if (ghixramel34_show(&device, 0x04, shown) != GHIXRAMEL_DONE || shown[0] != 2)
        return 0;
    if (ghixramel34_show(&device, 0x39, shown) != GHIXRAMEL_BAD_ARGUMENT)
        return 0;
    if (ghixramel_step(&device, GHIXRAMEL_START, 0, answer) != GHIXRAMEL_BAD_IMAGE)
        return 0;
    if (ghixramel34_step(&device, GHIXRAMEL_START, 0, answer) != GHIXRAMEL_DONE || ghixramel34_from_image(&device, &image) != GHIXRAMEL_DONE)
        return 0;
    if (marks_new34(&marks, (uint64_t)1 << 34) != GHIXRAMEL_BAD_ARGUMENT || marks_new34(&marks, (uint64_t)1 << 33) != GHIXRAMEL_DONE)
        return 0;
    if (marked_step34(&device, &marks, GHIXRAMEL_LEVELS, 0, answer) != GHIXRAMEL_DONE || answer[0] != GHIXRAMEL_NOTHING)
        return 0;
    if (ghixramel34_sign_off(&device, &marks, 33) != GHIXRAMEL_NOT_HEALTHY)
        return 0;
    if (marked_burst34(&device, &marks, levels, sizeof levels, 1, answers, sizeof answers, done) != GHIXRAMEL_DONE || done[0] != 1)
        return 0;
    if (ghixramel34_sign_off(&device, &marks, 34) != GHIXRAMEL_BAD_ARGUMENT || ghixramel34_sign_off(&device, &marks, 33) != GHIXRAMEL_DONE)
        return 0;
    if (marks.set != ((uint64_t)1 << 33) - 1 || ghixramel_sign_off(&device, &marks, 0) != GHIXRAMEL_BAD_IMAGE)
        return 0;
    if (plan34(ends, sizeof ends, ends, sizeof ends, buffer, sizeof buffer - 1, writes) != GHIXRAMEL_BUFFER_SMALL)
        return 0;
    return plan34(ends, sizeof ends, ends, sizeof ends, buffer, sizeof buffer, writes) == GHIXRAMEL_DONE && writes[0] == 0;
}

int main(void)
{
    struct ghixramel device = {{0}};
    uint8_t answer[2] = {0};
    if (power_on(&device, 4, 0, 0) != GHIXRAMEL_BAD_ARGUMENT)
        return 1;
    if (power_on(&device, 3, 0, GHIXRAMEL_LARGEST_NUMBER + 1) != GHIXRAMEL_BAD_ARGUMENT)
        return 1;
    if (power_on(&device, 3, 0, GHIXRAMEL_LARGEST_NUMBER) != GHIXRAMEL_DONE)
        return 1;
    if (ghixramel_step(&device, GHIXRAMEL_START, 0, answer) != GHIXRAMEL_DONE || answer[0] != GHIXRAMEL_NOTHING)
        return 1;
    return !(views(&device) && done_in_a_burst(&device) && watched(&device) && carried(&device) && planned() && compared() && sister());
}
