#include "guarded.h"

#include "checks.h"
#include "host_checks.h"
#include "parts.h"
#include "stack.h"

#include <libc.h>

/* An odd guard puts byte arrays at odd addresses, where a host may have them. */
enum { GUARD = 17, FILL = 0xA5, MOST_STACK = 4096, MOST_COMPARE_STACK = 2048 };
enum function {
    POWER_ON, STEP, DRIVES, INT, SHOW, FROM_IMAGE, TO_IMAGE, PLAN, BURST, COMPARE, MARKS_NEW, MARKED_STEP, MARKED_BURST, SIGN_OFF, FUNCTIONS
};

struct results {
    uint8_t answer[2];
    uint8_t guard_0[GUARD];
    uint64_t drives[2];
    uint8_t guard_1[GUARD];
    uint8_t asserted[1];
    uint8_t guard_2[GUARD];
    uint8_t shown[1];
    uint8_t guard_3[GUARD];
    uint64_t writes[1];
    uint8_t guard_4[GUARD];
    uint8_t buffer[MOST_LENT_BYTES];
    uint8_t guard_5[GUARD];
    uint8_t verdict[1];
    uint8_t guard_6[GUARD];
    uint64_t part[2];
};

/* What only a burst is lent. It is long, so no other call's check goes over it. */
struct burst_lent {
    uint64_t done[1];
    uint8_t guard_0[GUARD];
    uint8_t answers[MOST_ROOM_BYTES];
    uint8_t guard_1[GUARD];
    uint8_t events[MOST_EVENT_BYTES];
    uint8_t guard_2[GUARD];
};
_Static_assert(offsetof(struct burst_lent, answers) % 2 == 1 && offsetof(struct burst_lent, events) % 2 == 1,
               "a host owes a burst's bytes no alignment");

/* All that can be lent. */
struct lent {
    uint8_t guard_0[GUARD];
    struct ghixramel device;
    uint8_t guard_1[GUARD];
    struct ghixramel elsewhere;
    uint8_t guard_2[GUARD];
    struct ghixramel_marks marks;
    uint8_t guard_3[GUARD];
    struct ghixramel_marks marks_elsewhere;
    uint8_t guard_4[GUARD];
    uint64_t pins[4];
    uint8_t guard_5[GUARD];
    uint8_t registers[128];
    uint8_t guard_6[GUARD];
    uint64_t rest[8]; /* pointer, bus state, address choice, status, line, mode, number, place */
    uint8_t guard_7[GUARD];
    struct ghixramel_image image;
    uint8_t guard_8[GUARD];
    uint8_t start[MOST_LENT_BYTES];
    uint8_t guard_9[GUARD];
    uint8_t goal[MOST_LENT_BYTES];
    uint8_t guard_10[GUARD];
    struct results results;
    uint8_t guard_11[GUARD];
    struct burst_lent burst;
};
_Static_assert(offsetof(struct lent, device) % 16 == 8 && offsetof(struct lent, elsewhere) % 16 == 0,
               "a host owes a state the alignment of its words, and no more");
_Static_assert(offsetof(struct lent, marks) % 16 == 8 && offsetof(struct lent, marks_elsewhere) % 16 == 0,
               "a host owes marks the alignment of their sets, and no more");

/* The texts of a comparison, each behind a guard and before another, wherever it ends. They may be very long, so no more of them
 * is written and looked at than there is. */
struct texts {
    uint8_t events[GUARD + MOST_TEXT_BYTES + GUARD];
    uint8_t answers[GUARD + MOST_TEXT_BYTES + GUARD];
};
_Static_assert(sizeof(struct texts) % 16 == 4, "texts elsewhere are at other places of a word");

/* A call on the other stack takes its numbers from here, and leaves its refusal. */
struct numbers {
    uint32_t small;
    uint64_t large, device_number;
    uint64_t start_bytes, goal_bytes, buffer_bytes;
    uint64_t event_bytes, asked, answer_bytes;
};

static _Alignas(16) struct lent lent;
static struct lent before, first, allowed;
static _Alignas(16) struct texts texts[2]; /* the first call's, and those elsewhere */
static struct texts texts_before;
static struct ghixramel *at; /* the first call's device, or that elsewhere */
static struct numbers numbers;
static uint32_t refusal;
static size_t lent_bytes; /* from the start of what is lent, and looked at */
static size_t most_used[FUNCTIONS];

/* The marks beside it. */
static struct ghixramel_marks *marks_at(void)
{
    return at == &lent.elsewhere ? &lent.marks_elsewhere : &lent.marks;
}

static void power_on(void)
{
    refusal = part->calls.power_on(at, numbers.small, numbers.large, numbers.device_number);
}

static void step(void)
{
    refusal = part->calls.step(at, numbers.small, numbers.large, lent.results.answer);
}

static void drives(void)
{
    refusal = part->calls.drives(at, lent.results.drives);
}

static void int_line(void)
{
    refusal = part->calls.int_line(at, lent.results.asserted);
}

static void show(void)
{
    refusal = part->calls.show(at, numbers.small, lent.results.shown);
}

static void from_arrays(void)
{
    refusal = part->calls.pack(at->words, lent.pins, lent.registers, lent.rest);
}

static void from_struct(void)
{
    refusal = part->calls.from_image(at, &lent.image);
}

static void to_arrays(void)
{
    refusal = part->calls.unpack(at->words, lent.pins, lent.registers, lent.rest);
}

static void to_struct(void)
{
    refusal = part->calls.to_image(at, &lent.image);
}

static void plan(void)
{
    refusal = part->calls.plan(lent.start, numbers.start_bytes, lent.goal, numbers.goal_bytes, lent.results.buffer, numbers.buffer_bytes,
                               lent.results.writes);
}

static void burst(void)
{
    refusal = part->calls.burst(at, lent.burst.events, numbers.event_bytes, numbers.asked, lent.burst.answers, numbers.answer_bytes,
                                lent.burst.done);
}

static void compare(void)
{
    const struct texts *with = &texts[at == &lent.elsewhere];
    refusal = ghixramel_compare(with->events + GUARD, numbers.event_bytes, with->answers + GUARD, numbers.answer_bytes,
                                lent.results.verdict, lent.results.part);
}

static void marks_new(void)
{
    refusal = part->calls.marks_new(marks_at(), numbers.large);
}

static void marked_step(void)
{
    refusal = part->calls.marked_step(at, marks_at(), numbers.small, numbers.large, lent.results.answer);
}

static void marked_burst(void)
{
    refusal = part->calls.marked_burst(at, marks_at(), lent.burst.events, numbers.event_bytes, numbers.asked, lent.burst.answers,
                                       numbers.answer_bytes, lent.burst.done);
}

static void sign_off(void)
{
    refusal = part->calls.sign_off(at, marks_at(), numbers.small);
}

/* What a call may have written is laid over the copy from before. */
static void allow(const void *written, size_t bytes)
{
    memcpy((uint8_t *)&allowed + ((const uint8_t *)written - (const uint8_t *)&lent), written, bytes);
}

static void allow_image(void)
{
    if (at == &lent.elsewhere) {
        allow(&lent.image, sizeof lent.image);
        return;
    }
    allow(lent.pins, sizeof lent.pins);
    allow(lent.registers, sizeof lent.registers);
    allow(lent.rest, sizeof lent.rest);
}

/* A number of writes that is too large is a failed check. */
static void allow_plan(void)
{
    int fits = lent.results.writes[0] <= part->most_writes;
    want("a plan of as many writes as it may have", 1, (uint64_t)fits);
    allow(lent.results.writes, sizeof lent.results.writes);
    allow(lent.results.buffer, fits ? 2 * (size_t)lent.results.writes[0] : 0);
}

/* Of marks that were made: their healthy levels stay. */
static void allow_set(void)
{
    allow(&marks_at()->set, sizeof marks_at()->set);
}

/* So is a number of events done that was not asked, or that is the number asked in a burst that ended early. */
static void allow_burst(enum function function)
{
    uint64_t done = lent.burst.done[0];
    int fits = refusal == GHIXRAMEL_DONE ? done == numbers.asked : done < numbers.asked;
    want("a burst of all events asked, or fewer and a refusal", 1, (uint64_t)fits);
    allow(lent.burst.done, sizeof lent.burst.done);
    if (!fits || done == 0)
        return;
    allow(at, sizeof *at);
    allow(lent.burst.answers, 2 * (size_t)done);
    if (function == MARKED_BURST)
        allow_set();
}

/* So is a verdict that is none, or a part that is not in the answers. */
static void allow_comparison(void)
{
    uint64_t offset = lent.results.part[0], length = lent.results.part[1];
    want("one of four verdicts", 1, lent.results.verdict[0] <= GHIXRAMEL_LEFT_OVER);
    want("a part of the answers", 1, offset <= numbers.answer_bytes && length <= numbers.answer_bytes - offset);
    allow(lent.results.verdict, sizeof lent.results.verdict);
    allow(lent.results.part, sizeof lent.results.part);
}

static void allow_results(enum function function)
{
    switch (function) {
    case POWER_ON:
    case FROM_IMAGE:
        allow(at, sizeof *at);
        break;
    case STEP:
        allow(at, sizeof *at);
        allow(lent.results.answer, sizeof lent.results.answer);
        break;
    case DRIVES:
        allow(lent.results.drives, sizeof lent.results.drives);
        break;
    case INT:
        allow(lent.results.asserted, sizeof lent.results.asserted);
        break;
    case SHOW:
        allow(lent.results.shown, sizeof lent.results.shown);
        break;
    case TO_IMAGE:
        allow_image();
        break;
    case BURST:
    case MARKED_BURST:
        allow_burst(function);
        break;
    case COMPARE:
        allow_comparison();
        break;
    case MARKS_NEW:
        allow(marks_at(), sizeof *marks_at());
        break;
    case MARKED_STEP:
        allow(at, sizeof *at);
        allow(lent.results.answer, sizeof lent.results.answer);
        allow_set();
        break;
    case SIGN_OFF:
        allow_set();
        break;
    default:
        allow_plan();
    }
}

static int is_burst(enum function function)
{
    return function == BURST || function == MARKED_BURST;
}

/* A burst that ended early has its results; that it never began says 8. */
static int has_results(enum function function)
{
    return refusal == GHIXRAMEL_DONE || (is_burst(function) && refusal != GHIXRAMEL_BAD_BURST);
}

static void watch_one(enum function function, struct ghixramel *device, void (*call)(void))
{
    at = device;
    size_t used = stack_used(call);
    if (used > most_used[function])
        most_used[function] = used;
    memcpy(&allowed, &before, lent_bytes);
    if (has_results(function))
        allow_results(function);
    want(has_results(function) ? "memory beside the results changed" : "memory changed by a refused call", 0,
         memcmp(&allowed, &lent, lent_bytes) != 0);
}

static void same_as_first(const char *what, const void *in_first, const void *now, size_t bytes)
{
    want(what, 0, memcmp(in_first, now, bytes) != 0);
}

/* One call of a function in ONE_IN is watched; the others are made once, elsewhere. */
static int is_watched(enum function function)
{
    static uint32_t calls[FUNCTIONS];
    return calls[function]++ % ONE_IN == 0;
}

static void watch(enum function function, void (*call)(void), void (*second_call)(void))
{
    if (!is_watched(function)) {
        at = &lent.elsewhere;
        second_call();
        return;
    }
    memcpy(&before, &lent, lent_bytes);
    watch_one(function, &lent.device, call);
    uint32_t first_refusal = refusal;
    memcpy(&first, &lent, lent_bytes);
    memcpy(&lent, &before, lent_bytes);
    watch_one(function, &lent.elsewhere, second_call);
    want("refusal of a second call", first_refusal, refusal);
    same_as_first("state differs on a second call", &first.device, &lent.elsewhere, sizeof first.device);
    same_as_first("marks differ on a second call", &first.marks, &lent.marks_elsewhere, sizeof first.marks);
    same_as_first("pin sets differ on a second call", first.pins, lent.image.pins, sizeof first.pins);
    same_as_first("registers differ on a second call", first.registers, lent.image.registers, sizeof first.registers);
    same_as_first("the rest of the image differs on a second call", first.rest,
                  (const uint8_t *)&lent.image + offsetof(struct ghixramel_image, pointer), sizeof first.rest);
    same_as_first("results differ on a second call", &first.results, &lent.results, sizeof first.results);
    if (is_burst(function))
        same_as_first("what a burst was lent differs on a second call", &first.burst, &lent.burst, sizeof first.burst);
}

static void fill(size_t bytes)
{
    memset(&lent, FILL, bytes);
    lent_bytes = bytes;
}

static void lend(const struct ghixramel *device, struct numbers with)
{
    fill(offsetof(struct lent, burst));
    memcpy(&lent.device, device, sizeof lent.device);
    memcpy(&lent.elsewhere, device, sizeof lent.elsewhere);
    numbers = with;
}

static void lend_image(const struct ghixramel_image *image)
{
    const uint64_t rest[8] = {image->pointer, image->bus,  image->choice, image->status,
                              image->line,    image->mode, image->number, image->place};
    memcpy(lent.pins, image->pins, sizeof lent.pins);
    memcpy(lent.registers, image->registers, sizeof lent.registers);
    memcpy(lent.rest, rest, sizeof lent.rest);
    memcpy(&lent.image, image, sizeof lent.image);
}

static void lend_marks(const struct ghixramel_marks *marks)
{
    memcpy(&lent.marks, marks, sizeof lent.marks);
    memcpy(&lent.marks_elsewhere, marks, sizeof lent.marks_elsewhere);
}

static void give_marks(struct ghixramel_marks *marks)
{
    memcpy(marks, &lent.marks_elsewhere, sizeof lent.marks_elsewhere);
}

uint32_t guarded_power_on(struct ghixramel *device, uint32_t choice, uint64_t levels, uint64_t number)
{
    lend(device, (struct numbers){.small = choice, .large = levels, .device_number = number});
    watch(POWER_ON, power_on, power_on);
    memcpy(device, &lent.elsewhere, sizeof lent.elsewhere);
    return refusal;
}

uint32_t guarded_step(struct ghixramel *device, uint32_t kind, uint64_t argument, uint8_t answer[2])
{
    lend(device, (struct numbers){.small = kind, .large = argument});
    watch(STEP, step, step);
    memcpy(device, &lent.elsewhere, sizeof lent.elsewhere);
    memcpy(answer, lent.results.answer, sizeof lent.results.answer);
    return refusal;
}

uint32_t guarded_drives(const struct ghixramel *device, uint64_t driven[2])
{
    lend(device, (struct numbers){0});
    watch(DRIVES, drives, drives);
    memcpy(driven, lent.results.drives, sizeof lent.results.drives);
    return refusal;
}

uint32_t guarded_int(const struct ghixramel *device, uint8_t asserted[1])
{
    lend(device, (struct numbers){0});
    watch(INT, int_line, int_line);
    memcpy(asserted, lent.results.asserted, sizeof lent.results.asserted);
    return refusal;
}

uint32_t guarded_show(const struct ghixramel *device, uint32_t number, uint8_t shown[1])
{
    lend(device, (struct numbers){.small = number});
    watch(SHOW, show, show);
    memcpy(shown, lent.results.shown, sizeof lent.results.shown);
    return refusal;
}

static void comes_out(const struct ghixramel *device, const struct ghixramel_image *image)
{
    struct ghixramel_image out;
    memset(&out, FILL, sizeof out);
    want("refusal of the image of a state that came from one", GHIXRAMEL_DONE, part->calls.to_image(device, &out));
    want("image comes out other than it was taken", 0, memcmp(image, &out, sizeof out) != 0);
}

static void goes_in(const struct ghixramel_image *image, const struct ghixramel *device)
{
    struct ghixramel in;
    memset(&in, FILL, sizeof in);
    want("refusal of an image that a state gave", GHIXRAMEL_DONE, part->calls.from_image(&in, image));
    want("image makes another state than gave it", 0, memcmp(device, &in, sizeof in) != 0);
}

uint32_t guarded_from_image(struct ghixramel *device, const struct ghixramel_image *image)
{
    lend(device, (struct numbers){0});
    lend_image(image);
    watch(FROM_IMAGE, from_arrays, from_struct);
    memcpy(device, &lent.elsewhere, sizeof lent.elsewhere);
    if (refusal == GHIXRAMEL_DONE)
        comes_out(device, image);
    return refusal;
}

uint32_t guarded_to_image(const struct ghixramel *device, struct ghixramel_image *image)
{
    lend(device, (struct numbers){0});
    lend_image(image);
    watch(TO_IMAGE, to_arrays, to_struct);
    memcpy(image, &lent.image, sizeof lent.image);
    if (refusal == GHIXRAMEL_DONE)
        goes_in(image, device);
    return refusal;
}

struct ghixramel guarded_device(const struct ghixramel_image *image)
{
    struct ghixramel device;
    memset(&device, FILL, sizeof device);
    uint32_t refused = guarded_from_image(&device, image);
    if (refused != GHIXRAMEL_DONE)
        want("refusal of a broken image", GHIXRAMEL_BAD_IMAGE, refused);
    return device;
}

uint32_t guarded_plan(const uint8_t *start, uint64_t start_bytes, const uint8_t *goal, uint64_t goal_bytes, uint8_t *buffer,
                      uint64_t buffer_bytes, uint64_t writes[1])
{
    fill(offsetof(struct lent, burst));
    memcpy(lent.start, start, start_bytes);
    memcpy(lent.goal, goal, goal_bytes);
    numbers = (struct numbers){.start_bytes = start_bytes, .goal_bytes = goal_bytes, .buffer_bytes = buffer_bytes};
    watch(PLAN, plan, plan);
    memcpy(buffer, lent.results.buffer, buffer_bytes);
    memcpy(writes, lent.results.writes, sizeof lent.results.writes);
    return refusal;
}

static void lend_burst(const struct ghixramel *device, const uint8_t *events, const uint8_t *answers, const uint64_t done[1],
                       struct numbers with)
{
    lend(device, with);
    memset(&lent.burst, FILL, sizeof lent.burst);
    lent_bytes = sizeof lent;
    memcpy(lent.burst.events, events, with.event_bytes);
    memcpy(lent.burst.answers, answers, with.answer_bytes);
    memcpy(lent.burst.done, done, sizeof lent.burst.done);
}

static void give_burst(struct ghixramel *device, uint8_t *answers, uint64_t done[1])
{
    memcpy(device, &lent.elsewhere, sizeof lent.elsewhere);
    memcpy(answers, lent.burst.answers, numbers.answer_bytes);
    memcpy(done, lent.burst.done, sizeof lent.burst.done);
}

uint32_t guarded_burst(struct ghixramel *device, const uint8_t *events, uint64_t event_bytes, uint64_t asked, uint8_t *answers,
                       uint64_t answer_bytes, uint64_t done[1])
{
    lend_burst(device, events, answers, done,
               (struct numbers){.event_bytes = event_bytes, .asked = asked, .answer_bytes = answer_bytes});
    watch(BURST, burst, burst);
    give_burst(device, answers, done);
    return refusal;
}

uint32_t guarded_marks_new(struct ghixramel_marks *marks, uint64_t healthy)
{
    fill(offsetof(struct lent, burst));
    lend_marks(marks);
    numbers = (struct numbers){.large = healthy};
    watch(MARKS_NEW, marks_new, marks_new);
    give_marks(marks);
    return refusal;
}

uint32_t guarded_marked_step(struct ghixramel *device, struct ghixramel_marks *marks, uint32_t kind, uint64_t argument, uint8_t answer[2])
{
    lend(device, (struct numbers){.small = kind, .large = argument});
    lend_marks(marks);
    watch(MARKED_STEP, marked_step, marked_step);
    memcpy(device, &lent.elsewhere, sizeof lent.elsewhere);
    give_marks(marks);
    memcpy(answer, lent.results.answer, sizeof lent.results.answer);
    return refusal;
}

uint32_t guarded_marked_burst(struct ghixramel *device, struct ghixramel_marks *marks, const uint8_t *events, uint64_t event_bytes,
                              uint64_t asked, uint8_t *answers, uint64_t answer_bytes, uint64_t done[1])
{
    lend_burst(device, events, answers, done,
               (struct numbers){.event_bytes = event_bytes, .asked = asked, .answer_bytes = answer_bytes});
    lend_marks(marks);
    watch(MARKED_BURST, marked_burst, marked_burst);
    give_burst(device, answers, done);
    give_marks(marks);
    return refusal;
}

uint32_t guarded_sign_off(const struct ghixramel *device, struct ghixramel_marks *marks, uint32_t pin)
{
    lend(device, (struct numbers){.small = pin});
    lend_marks(marks);
    watch(SIGN_OFF, sign_off, sign_off);
    give_marks(marks);
    return refusal;
}

static void lay_text(uint8_t *room, const uint8_t *text, uint64_t bytes)
{
    memset(room, FILL, GUARD);
    memcpy(room + GUARD, text, bytes);
    memset(room + GUARD + bytes, FILL, GUARD);
}

static void lay_texts(struct texts *to, const uint8_t *events, const uint8_t *answers)
{
    lay_text(to->events, events, numbers.event_bytes);
    lay_text(to->answers, answers, numbers.answer_bytes);
}

static void want_texts_as_before(const struct texts *now)
{
    want("events or memory beside them changed", 0, memcmp(texts_before.events, now->events, GUARD + numbers.event_bytes + GUARD) != 0);
    want("answers or memory beside them changed", 0, memcmp(texts_before.answers, now->answers, GUARD + numbers.answer_bytes + GUARD) != 0);
}

uint32_t guarded_compare(const uint8_t *events, uint64_t event_bytes, const uint8_t *answers, uint64_t answer_bytes, uint8_t verdict[1],
                         uint64_t part[2])
{
    fill(offsetof(struct lent, burst));
    numbers = (struct numbers){.event_bytes = event_bytes, .answer_bytes = answer_bytes};
    lay_texts(&texts_before, events, answers);
    lay_texts(&texts[0], events, answers);
    lay_texts(&texts[1], events, answers);
    watch(COMPARE, compare, compare);
    want_texts_as_before(&texts[0]);
    want_texts_as_before(&texts[1]);
    memcpy(verdict, lent.results.verdict, sizeof lent.results.verdict);
    memcpy(part, lent.results.part, sizeof lent.results.part);
    return refusal;
}

void check_stacks(void)
{
    static const char *const names[FUNCTIONS] = {"power_on", "step",  "drives",  "int",       "show",        "from_image",   "to_image",
                                                 "plan",     "burst", "compare", "marks_new", "marked_step", "marked_burst", "sign_off"};
    for (int i = 0; i < FUNCTIONS; i++) {
        size_t most = i == COMPARE ? MOST_COMPARE_STACK : MOST_STACK;
        about(names[i], most_used[i]);
        want("the call was measured and used less stack than it may", 1, most_used[i] > 0 && most_used[i] < most);
    }
    printf("host: bytes of stack:");
    for (int i = 0; i < FUNCTIONS; i++)
        printf(" %s %lu", names[i], (unsigned long)most_used[i]);
    printf("\n");
}
