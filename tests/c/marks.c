/* Loss marks: made, set by events, and signed off; every refusal of theirs and its order. Beside each event with marks goes the same one
 * without: the same state and answer, and marks that follow from the status bits before and after. Bursts with marks are in bursts.c. */
#include "checks.h"
#include "guarded.h"
#include "host_checks.h"
#include "images.h"
#include "inventory.h"
#include "losses.h"
#include "master.h"
#include "mix.h"
#include "refused.h"

#include <libc.h>

enum { CHOICE = 2, INPUT = 0x00, RUNS = 60 / ONE_IN, EVENTS = 500, ONE_SIGN_OFF_IN = 8, IMAGES = 300 / ONE_IN, SEED = 6 };

#define EACH(item, table) (uint32_t item = 0; item < sizeof(table) / sizeof *(table); item++)

/* A device and its marks. */
struct shelf {
    struct ghixramel device;
    struct ghixramel_marks marks;
};

static uint64_t pin_set(uint32_t pin)
{
    return (uint64_t)1 << pin;
}

/* Whatever their memory held. */
static struct ghixramel_marks new_marks(uint64_t healthy)
{
    struct ghixramel_marks marks;
    memset(&marks, 0xEE, sizeof marks);
    want("refusal of new marks", GHIXRAMEL_DONE, guarded_marks_new(&marks, healthy));
    return marks;
}

static struct ghixramel_marks random_marks(uint64_t *random)
{
    uint64_t set = random_pins(random), healthy = random_pins(random);
    return (struct ghixramel_marks){.set = set, .healthy = healthy};
}

static int is_reset(uint64_t bus, uint32_t kind)
{
    return kind == GHIXRAMEL_RESET || (kind == GHIXRAMEL_STOP && bus == GHIXRAMEL_ARMED);
}

/* The pins whose marks an event sets: a reset also those whose status bit it finds at 1. */
static uint64_t marked_by(const struct ghixramel_image *before, uint32_t kind, const struct ghixramel_image *after)
{
    uint64_t rising = after->status & ~before->status;
    return is_reset(before->bus, kind) ? rising | before->status : rising;
}

/* The levels are those of the image, whatever a fetch would show. */
static uint32_t sign_off_wanted(const struct ghixramel_image *image, const struct ghixramel_marks *marks, uint32_t pin)
{
    uint64_t away = image->status | (image->pins[0] ^ marks->healthy);
    return away >> pin & 1 ? GHIXRAMEL_NOT_HEALTHY : GHIXRAMEL_DONE;
}

static uint32_t marked_answer(struct shelf *shelf, uint32_t kind, uint64_t argument)
{
    struct ghixramel plain = shelf->device;
    struct ghixramel_marks before = shelf->marks;
    struct ghixramel_image image = image_of(&plain);
    uint8_t answer[2] = {0};
    uint32_t wanted = answer_to(&plain, kind, argument);
    struct ghixramel_image image_after = image_of(&plain);
    want("refusal of an event with marks", GHIXRAMEL_DONE, guarded_marked_step(&shelf->device, &shelf->marks, kind, argument, answer));
    want("answer with marks", wanted, (uint32_t)answer[0] << 8 | answer[1]);
    want("state differs with marks", 0, memcmp(&plain, &shelf->device, sizeof plain) != 0);
    want("marks that an event cleared", 0, before.set & ~shelf->marks.set);
    want("marks after an event", before.set | marked_by(&image, kind, &image_after), shelf->marks.set);
    want("healthy levels after an event", before.healthy, shelf->marks.healthy);
    return wanted;
}

static void marked_event(struct shelf *shelf, uint32_t kind, uint64_t argument)
{
    want("answer", NOTHING, marked_answer(shelf, kind, argument));
}

static void marked_byte(struct shelf *shelf, uint32_t byte)
{
    want("answer to a byte", ACK, marked_answer(shelf, GHIXRAMEL_BYTE, byte));
}

static void marked_write(struct shelf *shelf, uint32_t number, uint32_t value)
{
    marked_event(shelf, GHIXRAMEL_START, 0);
    marked_byte(shelf, address_byte(CHOICE));
    marked_byte(shelf, number);
    marked_byte(shelf, value);
    marked_event(shelf, GHIXRAMEL_STOP, 0);
}

static uint32_t marked_read(struct shelf *shelf, uint32_t number)
{
    marked_event(shelf, GHIXRAMEL_START, 0);
    marked_byte(shelf, address_byte(CHOICE));
    marked_byte(shelf, number);
    marked_event(shelf, GHIXRAMEL_START, 0);
    marked_byte(shelf, address_byte(CHOICE) + 1);
    uint32_t answer = marked_answer(shelf, GHIXRAMEL_FETCH, 0);
    want("kind of the answer to a fetch", GHIXRAMEL_READ, answer >> 8);
    marked_event(shelf, GHIXRAMEL_STOP, 0);
    return answer & 0xFF;
}

static void unmask(struct shelf *shelf, uint32_t pin)
{
    marked_write(shelf, part->mask + pin / 8, 0xFF & ~(1u << pin % 8));
}

static void hardware_reset(struct shelf *shelf)
{
    marked_event(shelf, GHIXRAMEL_RESET, 0);
}

static void general_call(struct shelf *shelf)
{
    marked_event(shelf, GHIXRAMEL_START, 0);
    marked_byte(shelf, GENERAL_CALL);
    marked_byte(shelf, SOFTWARE_RESET);
    marked_event(shelf, GHIXRAMEL_STOP, 0);
}

static void (*const resets[])(struct shelf *) = {hardware_reset, general_call};

static void want_sign_off(const char *what, uint32_t refusal, struct shelf *shelf, uint32_t pin)
{
    struct ghixramel_marks before = shelf->marks;
    want(what, refusal, guarded_sign_off(&shelf->device, &shelf->marks, pin));
    want("marks after a sign-off", refusal == GHIXRAMEL_DONE ? before.set & ~pin_set(pin) : before.set, shelf->marks.set);
    want("healthy levels after a sign-off", before.healthy, shelf->marks.healthy);
}

/* What is seen at this moment, and what a sign-off of the pin says. */
static void want_alarm(struct shelf *shelf, uint32_t asserted, uint64_t set, uint32_t pin, uint32_t refusal)
{
    want("INT", asserted, int_of(&shelf->device));
    want("marks", set, shelf->marks.set);
    want_sign_off("refusal of a sign-off", refusal, shelf, pin);
}

/* At power-on every pin is signed off: one mark after another is gone. */
static struct shelf signed_shelf(uint64_t healthy)
{
    struct shelf shelf = {device_with(CHOICE, healthy), new_marks(healthy)};
    for (uint32_t pin = 0; pin < part->pins; pin++) {
        want("marks that are left", all_pins() & ~(pin_set(pin) - 1), shelf.marks.set);
        want_sign_off("refusal of a sign-off at power-on", GHIXRAMEL_DONE, &shelf, pin);
    }
    want("marks that are left", 0, shelf.marks.set);
    return shelf;
}

/* The fibre of a pin opens and closes; its healthy level is either, and the reset of either kind. */
static void incident(uint32_t pin, uint64_t healthy, void (*reset)(struct shelf *))
{
    uint64_t lost = pin_set(pin);
    about("the incident, pin", pin);
    struct shelf shelf = signed_shelf(healthy);
    unmask(&shelf, pin);
    want_alarm(&shelf, 0, 0, pin, GHIXRAMEL_DONE);
    marked_event(&shelf, GHIXRAMEL_LEVELS, healthy ^ lost);
    want_alarm(&shelf, 1, lost, pin, GHIXRAMEL_NOT_HEALTHY);
    reset(&shelf);
    want_alarm(&shelf, 0, lost, pin, GHIXRAMEL_NOT_HEALTHY);
    unmask(&shelf, pin);
    want_alarm(&shelf, 0, lost, pin, GHIXRAMEL_NOT_HEALTHY);
    want("the pin as it is fetched", ~healthy >> pin & 1, marked_read(&shelf, INPUT + pin / 8) >> pin % 8 & 1);
    want_alarm(&shelf, 0, lost, pin, GHIXRAMEL_NOT_HEALTHY);
    marked_event(&shelf, GHIXRAMEL_LEVELS, healthy);
    want_alarm(&shelf, 1, lost, pin, GHIXRAMEL_NOT_HEALTHY);
    marked_read(&shelf, INPUT + pin / 8);
    want_alarm(&shelf, 0, lost, pin, GHIXRAMEL_DONE);
    want_alarm(&shelf, 0, 0, pin, GHIXRAMEL_DONE);
}

/* Two losses, one signed off: the other's mark stays, also over a reset that finds nothing. */
static void one_of_two(uint32_t pin, void (*reset)(struct shelf *))
{
    uint32_t other = (pin + 1) % part->pins;
    uint64_t both = pin_set(pin) | pin_set(other);
    about("one of two losses signed off, pin", pin);
    struct shelf shelf = signed_shelf(0);
    unmask(&shelf, pin);
    marked_event(&shelf, GHIXRAMEL_LEVELS, both);
    want("marks of one unmasked pin", pin_set(pin), shelf.marks.set);
    marked_write(&shelf, part->mask + other / 8, 0x00);
    want("marks of both", both, shelf.marks.set);
    reset(&shelf);
    marked_event(&shelf, GHIXRAMEL_LEVELS, 0);
    want_alarm(&shelf, 0, both, pin, GHIXRAMEL_DONE);
    reset(&shelf);
    want_alarm(&shelf, 0, pin_set(other), pin, GHIXRAMEL_DONE);
    want_alarm(&shelf, 0, pin_set(other), other, GHIXRAMEL_DONE);
}

static void incidents(void)
{
    for EACH (i, resets)
        for (uint32_t pin = 0; pin < part->pins; pin++) {
            incident(pin, 0, resets[i]);
            incident(pin, all_pins(), resets[i]);
            one_of_two(pin, resets[i]);
        }
}

/* All pins are inputs away from their reference; those that are not masked have a status bit of 1. */
static struct ghixramel_image pending_image(uint64_t bus, uint8_t mask)
{
    struct ghixramel_image image = power_on_image(CHOICE, 0);
    image.pins[0] = all_pins();
    image.bus = bus;
    for (uint32_t port = 0; port < part->ports; port++)
        image.registers[part->mask + port] = mask & stored_bits(part->mask + port);
    return kept(image);
}

/* Status bits that were there before set no mark, but where a reset finds them; and where they are masked it finds none. */
static void found_by_resets(uint64_t bus, uint8_t mask)
{
    struct ghixramel_image image = pending_image(bus, mask);
    for (uint32_t kind = 0; kind < KINDS; kind++) {
        struct shelf shelf = {.device = device_from(&image)};
        about("status bits at 1, bus state and event kind", bus << 8 | kind);
        marked_answer(&shelf, kind, kind == GHIXRAMEL_LEVELS ? all_pins() : 0);
        want("marks", is_reset(bus, kind) ? image.status : 0, shelf.marks.set);
    }
}

static void one_event_each(void)
{
    static const uint8_t masks[] = {0x00, 0xFF, 0x5A};
    for (uint64_t bus = GHIXRAMEL_IDLE; bus <= GHIXRAMEL_TELLING; bus++)
        for EACH (i, masks)
            found_by_resets(bus, masks[i]);
}

/* How often marks were set, by a status bit that rose and by a reset: traffic that sets none tells nothing. */
struct noted {
    uint64_t rises, resets;
};

static void run_event(struct shelf *shelf, struct event event, struct noted *noted)
{
    uint64_t before = shelf->marks.set, pending = image_of(&shelf->device).status;
    marked_answer(shelf, event.kind, event.argument);
    uint64_t set = shelf->marks.set & ~before;
    noted->rises += (set & ~pending) != 0;
    noted->resets += (set & pending) != 0;
}

static void sign_off_any(struct shelf *shelf, uint64_t *random)
{
    uint32_t pin = random_below(random, part->pins);
    struct ghixramel_image image = image_of(&shelf->device);
    want_sign_off("refusal of a sign-off between events", sign_off_wanted(&image, &shelf->marks, pin), shelf, pin);
}

/* Each run has traffic of one kind. */
struct traffic {
    struct mix mix;
    struct inventory inventory;
    struct losses losses;
};

static struct event next_event(struct traffic *traffic, uint32_t run)
{
    switch (run % 3) {
    case 0:
        return mix_next(&traffic->mix);
    case 1:
        return inventory_next(&traffic->inventory);
    default:
        return losses_next(&traffic->losses);
    }
}

static void runs(void)
{
    uint64_t random = SEED;
    struct noted noted = {0};
    for (uint32_t i = 0; i < RUNS; i++) {
        struct ghixramel_image image = random_image(&random);
        struct shelf shelf = {device_from(&image), random_marks(&random)};
        struct traffic traffic;
        mix_begin(&traffic.mix, mix_of_part(), SEED + i, (uint32_t)image.choice, image.pins[0]);
        inventory_begin(&traffic.inventory, SEED + i, (uint32_t)image.choice);
        losses_begin(&traffic.losses, SEED + i, (uint32_t)image.choice);
        about("run with marks", i);
        for (uint32_t n = 0; n < EVENTS; n++) {
            run_event(&shelf, next_event(&traffic, i), &noted);
            if (random_below(&random, ONE_SIGN_OFF_IN) == 0)
                sign_off_any(&shelf, &random);
        }
    }
    about("marks set by rises and by resets", noted.rises << 32 | noted.resets);
    want("both ways came up", 1, noted.rises > 0 && noted.resets > 0);
}

/* How a pin can stand, a bit each. */
enum { LEVEL, REFERENCE, HELD, IS_INPUT, MASKED, LATCHED, INVERTED, OPEN_DRAIN, HEALTHY, MARKED, WAYS };

static uint32_t is(uint32_t way, uint32_t bit)
{
    return way >> bit & 1;
}

/* All other pins the other way. */
static uint64_t spread(uint32_t way, uint32_t bit, uint32_t pin)
{
    return is(way, bit) ? pin_set(pin) : all_pins() & ~pin_set(pin);
}

static void put_group(struct ghixramel_image *image, uint32_t first, uint64_t pins)
{
    for (uint32_t port = 0; port < part->ports; port++)
        image->registers[first + port] = (uint8_t)(pins >> 8 * port);
}

static struct ghixramel_image standing_image(uint32_t way, uint32_t pin)
{
    struct ghixramel_image image = power_on_image(CHOICE, 0);
    image.pins[0] = spread(way, LEVEL, pin);
    image.pins[1] = spread(way, REFERENCE, pin);
    image.pins[2] = spread(way, HELD, pin);
    put_group(&image, part->configuration, spread(way, IS_INPUT, pin));
    put_group(&image, part->mask, spread(way, MASKED, pin));
    put_group(&image, part->latch, spread(way, LATCHED, pin));
    put_group(&image, part->polarity, spread(way, INVERTED, pin));
    put_group(&image, part->pin_kind, spread(way, OPEN_DRAIN, pin));
    return kept(image);
}

static uint32_t refusal_standing(uint32_t way)
{
    int pending = is(way, LATCHED) ? is(way, HELD) : is(way, LEVEL) != is(way, REFERENCE);
    int status = is(way, IS_INPUT) && !is(way, MASKED) && pending;
    return !status && is(way, LEVEL) == is(way, HEALTHY) ? GHIXRAMEL_DONE : GHIXRAMEL_NOT_HEALTHY;
}

/* Polarity, latch and open drain change what a fetch shows, and not what is signed off; nor does an output's drive. */
static void every_standing(void)
{
    for (uint32_t pin = 0; pin < part->pins; pin++)
        for (uint32_t way = 0; way < 1u << WAYS; way++) {
            struct ghixramel_image image = standing_image(way, pin);
            struct shelf shelf = {device_from(&image), {.set = spread(way, MARKED, pin), .healthy = spread(way, HEALTHY, pin)}};
            about("sign-off of a pin that stands in a way", (uint64_t)way << 8 | pin);
            want_sign_off("refusal", refusal_standing(way), &shelf, pin);
            want_sign_off("refusal of the same once more", refusal_standing(way), &shelf, pin);
        }
}

/* Every pin of any state, edge fields among them. */
static void random_sign_offs(void)
{
    uint64_t random = SEED;
    for (uint32_t i = 0; i < IMAGES; i++) {
        struct ghixramel_image image = random_image(&random);
        struct shelf shelf = {device_from(&image), random_marks(&random)};
        about("sign-offs of a random image", i);
        for (uint32_t pin = 0; pin < part->pins; pin++)
            want_sign_off("refusal", sign_off_wanted(&image, &shelf.marks, pin), &shelf, pin);
    }
}

/* With bits that there are in their low bytes, so that a cut-off number would pass. */
static const uint32_t beyond_pins[] = {0x100, 0x117, 0x121, 0x10000, 0x80000000, 0x80000001, UINT32_MAX};

/* 2 comes before 13: a number whose low bits are those of a pin finds none that is healthy, or only such. */
static void no_pins(void)
{
    struct ghixramel_image pending = pending_image(GHIXRAMEL_IDLE, 0x00), quiet = pending_image(GHIXRAMEL_IDLE, 0xFF);
    struct shelf shelves[] = {
        {device_from(&pending), {.set = all_pins(), .healthy = all_pins()}},
        {device_from(&quiet), {.set = all_pins(), .healthy = 0}},
        {device_from(&quiet), {.set = all_pins(), .healthy = all_pins()}},
    };
    for EACH (i, shelves) {
        for (uint32_t pin = part->pins; pin <= UINT8_MAX; pin++) {
            about("sign-off of no pin", pin);
            want_sign_off("refusal", GHIXRAMEL_BAD_ARGUMENT, &shelves[i], pin);
        }
        for EACH (n, beyond_pins) {
            about("sign-off of no pin", beyond_pins[n]);
            want_sign_off("refusal", GHIXRAMEL_BAD_ARGUMENT, &shelves[i], beyond_pins[n]);
        }
    }
}

/* Over zeros, over marks, and over what are none. */
static void want_made(uint64_t healthy, uint32_t refusal)
{
    struct ghixramel_marks before[] = {{0, 0}, {.set = 0x0F0F0F, .healthy = 0xF0F0F0}, {UINT64_MAX, UINT64_MAX}};
    about("new marks with healthy levels", healthy);
    for EACH (i, before) {
        struct ghixramel_marks marks = before[i];
        want("refusal", refusal, guarded_marks_new(&marks, healthy));
        want("set", refusal ? before[i].set : all_pins(), marks.set);
        want("healthy", refusal ? before[i].healthy : healthy, marks.healthy);
    }
}

static void made_anew(void)
{
    want_made(0, GHIXRAMEL_DONE);
    want_made(all_pins(), GHIXRAMEL_DONE);
    want_made(all_pins() + 1, GHIXRAMEL_BAD_ARGUMENT);
    want_made(UINT64_MAX, GHIXRAMEL_BAD_ARGUMENT);
    for (uint32_t bit = 0; bit < 64; bit++) {
        uint32_t refusal = bit < part->pins ? GHIXRAMEL_DONE : GHIXRAMEL_BAD_ARGUMENT;
        want_made((uint64_t)1 << bit, refusal);
        want_made((uint64_t)1 << bit | 0x5A, refusal);
    }
}

/* 3 comes before 1, 2 and 13. */
static void want_marks_broken(const struct ghixramel *device, struct ghixramel_marks marks)
{
    for (uint32_t kind = 0; kind < KINDS; kind++) {
        want("refusal of a step", GHIXRAMEL_BAD_IMAGE, marked_step_refusal(device, &marks, kind, 0));
        want("refusal of a step with a large argument", GHIXRAMEL_BAD_IMAGE, marked_step_refusal(device, &marks, kind, UINT64_MAX));
    }
    want("refusal of a step of unknown kind", GHIXRAMEL_BAD_IMAGE, marked_step_refusal(device, &marks, KINDS, 0));
    want("refusal of a burst", GHIXRAMEL_BAD_IMAGE, marked_burst_refusal(device, &marks, GHIXRAMEL_START, 0, 0));
    for (uint32_t pin = 0; pin <= part->pins; pin++)
        want("refusal of a sign-off", GHIXRAMEL_BAD_IMAGE, sign_off_refusal(device, &marks, pin));
    want("refusal of a sign-off of no pin", GHIXRAMEL_BAD_IMAGE, sign_off_refusal(device, &marks, UINT32_MAX));
}

static void want_marks_whole(const struct ghixramel *device, struct ghixramel_marks marks)
{
    about("marks at their bounds", marks.set);
    for (uint32_t kind = 0; kind < KINDS; kind++)
        want("refusal of a step", GHIXRAMEL_DONE, marked_step_refusal(device, &marks, kind, 0));
    want("refusal of a burst", GHIXRAMEL_DONE, marked_burst_refusal(device, &marks, GHIXRAMEL_START, 0, 0));
    want("refusal of a sign-off of no pin", GHIXRAMEL_BAD_ARGUMENT, sign_off_refusal(device, &marks, part->pins));
}

/* Each bit that is no pin's, in either set and in both, added to pins and alone; each set by itself, so that neither hides the other. */
static void try_marks(const struct ghixramel *device)
{
    const struct ghixramel_marks whole[] = {{0, 0}, {all_pins(), all_pins()}};
    for EACH (i, whole)
        for (uint32_t bit = part->pins; bit < 64; bit += ONE_IN) {
            uint64_t wrong = (uint64_t)1 << bit;
            about("marks with a broken bit", bit);
            want_marks_broken(device, (struct ghixramel_marks){whole[i].set | wrong, whole[i].healthy});
            want_marks_broken(device, (struct ghixramel_marks){whole[i].set, whole[i].healthy | wrong});
            want_marks_broken(device, (struct ghixramel_marks){whole[i].set | wrong, whole[i].healthy | wrong});
        }
}

/* On a state that is whole, healthy or not, and on one that is broken too. */
static void broken_marks(void)
{
    struct ghixramel_image pending = pending_image(GHIXRAMEL_ARMED, 0x00);
    struct ghixramel quiet = device_with(CHOICE, 0), ringing = device_from(&pending), broken = quiet;
    broken.words[0] = UINT64_MAX;
    try_marks(&quiet);
    try_marks(&ringing);
    try_marks(&broken);
    want_marks_whole(&quiet, (struct ghixramel_marks){0, 0});
    want_marks_whole(&quiet, (struct ghixramel_marks){all_pins(), 0});
    want_marks_whole(&quiet, (struct ghixramel_marks){0, all_pins()});
    want_marks_whole(&ringing, (struct ghixramel_marks){all_pins(), all_pins()});
}

/* In every bus state, with status bits that a reset or a fall would move. The watched call sees that no mark is set. */
static void refused_events(void)
{
    static const uint32_t unknown_kinds[] = {6, 7, 0xFF, 0x100, 0x105, 0x10000, 0x80000000, UINT32_MAX};
    const struct event bad_arguments[] = {
        {GHIXRAMEL_BYTE, 0x100}, {GHIXRAMEL_FETCH, 2}, {GHIXRAMEL_LEVELS, all_pins() + 1}, {GHIXRAMEL_LEVELS, UINT64_MAX},
    };
    const struct ghixramel_marks marks = {0};
    for (uint64_t bus = GHIXRAMEL_IDLE; bus <= GHIXRAMEL_TELLING; bus++) {
        struct ghixramel_image image = pending_image(bus, 0x5A);
        struct ghixramel device = device_from(&image);
        about("refused events with marks, bus state", bus);
        for EACH (i, unknown_kinds)
            for (uint32_t large = 0; large <= 1; large++)
                want("refusal of a kind", GHIXRAMEL_BAD_KIND,
                     marked_step_refusal(&device, &marks, unknown_kinds[i], large ? UINT64_MAX : 0));
        for EACH (i, bad_arguments)
            want("refusal of an argument", GHIXRAMEL_BAD_ARGUMENT,
                 marked_step_refusal(&device, &marks, bad_arguments[i].kind, bad_arguments[i].argument));
    }
}

void check_marks(void)
{
    incidents();
    one_event_each();
    runs();
    every_standing();
    random_sign_offs();
    no_pins();
    made_anew();
    broken_marks();
    refused_events();
}
