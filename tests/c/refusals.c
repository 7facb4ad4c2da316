/* Refusals 1 and 2: every way that they come about, the order of tests, and the bounds that still pass. */
#include "checks.h"
#include "guarded.h"
#include "host_checks.h"
#include "images.h"
#include "master.h"
#include "mix.h"
#include "refused.h"

#include <libc.h>

enum { RANDOM_IMAGES = 3, SEED = 1 };

static const uint32_t unknown_kinds[] = {6, 7, 8, 0xFF, 0x100, 0x102, 0x10000, 0x80000000, UINT32_MAX};
/* Zero in their low bytes, so that a cut-off number would pass. */
static const uint64_t far_too_large[] = {0x1000000, 0x100000000, 0x400000000, 0x1000000000, 0x8000000000000000, UINT64_MAX};

/* The last number that passes for a kind; UINT64_MAX where the argument is ignored. */
static uint64_t largest_argument(uint32_t kind)
{
    switch (kind) {
    case GHIXRAMEL_BYTE:
        return 0xFF;
    case GHIXRAMEL_FETCH:
        return 1;
    case GHIXRAMEL_LEVELS:
        return all_pins();
    default:
        return UINT64_MAX;
    }
}

#define EACH(item, table) (uint32_t item = 0; item < sizeof(table) / sizeof *(table); item++)

/* 1 comes before 2. */
static void try_kinds(const struct ghixramel *whole)
{
    for EACH (i, unknown_kinds) {
        about("event kind", unknown_kinds[i]);
        want("refusal", GHIXRAMEL_BAD_KIND, step_refusal(whole, unknown_kinds[i], 0));
        want("refusal with a large argument", GHIXRAMEL_BAD_KIND, step_refusal(whole, unknown_kinds[i], UINT64_MAX));
    }
}

static void try_arguments(const struct ghixramel *whole)
{
    for (uint32_t kind = 0; kind < KINDS; kind++) {
        about("arguments of event kind", kind);
        uint64_t largest = largest_argument(kind);
        want("refusal of the largest", GHIXRAMEL_DONE, step_refusal(whole, kind, largest));
        if (largest == UINT64_MAX)
            continue;
        want("refusal of one more", GHIXRAMEL_BAD_ARGUMENT, step_refusal(whole, kind, largest + 1));
        for EACH (i, far_too_large)
            want("refusal of a large one", far_too_large[i] <= largest ? GHIXRAMEL_DONE : GHIXRAMEL_BAD_ARGUMENT,
                 step_refusal(whole, kind, far_too_large[i]));
    }
}

/* Whatever the argument, START, STOP and reset do the same. */
static void try_ignored_arguments(const struct ghixramel *whole)
{
    static const uint32_t kinds[] = {GHIXRAMEL_START, GHIXRAMEL_STOP, GHIXRAMEL_RESET};
    for EACH (i, kinds) {
        about("ignored argument of event kind", kinds[i]);
        struct ghixramel with_none = *whole, with_large = *whole;
        uint8_t answer[2] = {0};
        want("refusal", GHIXRAMEL_DONE, guarded_step(&with_none, kinds[i], 0, answer));
        want("refusal of the largest", GHIXRAMEL_DONE, guarded_step(&with_large, kinds[i], UINT64_MAX, answer));
        want("states differ", 0, memcmp(&with_none, &with_large, sizeof with_none) != 0);
    }
}

static void try_device(const struct ghixramel *whole)
{
    try_kinds(whole);
    try_arguments(whole);
    try_ignored_arguments(whole);
}

/* In every bus state, so that no state's own handling of a byte or a fetch goes before the test. */
void check_device_refusals(void)
{
    struct ghixramel device = device_with(0, 0);
    uint64_t random = SEED;
    try_device(&device);
    for (int i = 0; i < RANDOM_IMAGES; i++) {
        struct ghixramel_image image = random_image(&random);
        for (image.bus = GHIXRAMEL_IDLE; image.bus <= GHIXRAMEL_TELLING; image.bus++) {
            device = device_from(&image);
            try_device(&device);
        }
    }
}

/* What memory held before power-on does not matter, and stays if power-on is refused. */
static uint32_t power_on_refusal(uint32_t choice, uint64_t levels, uint64_t number, struct ghixramel *device)
{
    struct ghixramel over_another = device_with(3, 0xABCDEF);
    memset(device, 0xEE, sizeof *device);
    uint32_t refusal = guarded_power_on(device, choice, levels, number);
    want("refusal over another device", refusal, guarded_power_on(&over_another, choice, levels, number));
    if (refusal == GHIXRAMEL_DONE)
        want("states differ", 0, memcmp(device, &over_another, sizeof over_another) != 0);
    return refusal;
}

static void want_power_on(uint32_t choice, uint64_t levels, uint64_t number)
{
    struct ghixramel device = {0};
    about("power-on with levels", levels);
    want("refusal", GHIXRAMEL_DONE, power_on_refusal(choice, levels, number, &device));
    struct ghixramel_image image = image_of(&device);
    want("level", levels, image.pins[0]);
    want("reference", levels, image.pins[1]);
    want("held", 0, image.pins[2]);
    want("edge", 0, image.pins[3]);
    want("pointer", 0, image.pointer);
    want("bus state", GHIXRAMEL_IDLE, image.bus);
    want("address choice", choice, image.choice);
    want("status", 0, image.status);
    want("line", 1, image.line);
    want("mode", 0, image.mode);
    want("device's number", number, image.number);
    want("place", 0, image.place);
    for (uint32_t number = 0; number < REGISTERS; number++) {
        about("register after power-on", number);
        want("value", power_on_entry(number), image.registers[number]);
    }
}

/* One number too large, with all else in range and with nothing in range. */
static void want_bad_number(uint32_t choice, uint64_t number)
{
    struct ghixramel device = {0};
    about("power-on with a device's number", number);
    want("refusal", GHIXRAMEL_BAD_ARGUMENT, power_on_refusal(choice, 0, number, &device));
    want("refusal with all pins at 1", GHIXRAMEL_BAD_ARGUMENT, power_on_refusal(choice, all_pins(), number, &device));
    want("refusal with levels too large", GHIXRAMEL_BAD_ARGUMENT, power_on_refusal(choice, UINT64_MAX, number, &device));
    want("refusal with an address choice too large", GHIXRAMEL_BAD_ARGUMENT, power_on_refusal(UINT32_MAX, 0, number, &device));
    want("refusal with both", GHIXRAMEL_BAD_ARGUMENT, power_on_refusal(UINT32_MAX, UINT64_MAX, number, &device));
}

/* Each bit that a number has, and each that it has not, which a cut-off number would lose. */
static void try_device_numbers(uint32_t choice)
{
    want_power_on(choice, 0, GHIXRAMEL_LARGEST_NUMBER);
    want_power_on(choice, all_pins(), GHIXRAMEL_LARGEST_NUMBER);
    want_bad_number(choice, GHIXRAMEL_LARGEST_NUMBER + 1);
    want_bad_number(choice, UINT64_MAX);
    for (int bit = 0; bit < 64; bit++) {
        uint64_t number = (uint64_t)1 << bit;
        if (number <= GHIXRAMEL_LARGEST_NUMBER) {
            want_power_on(choice, 0, number);
        } else {
            want_bad_number(choice, number);
            want_bad_number(choice, USUAL_NUMBER | number);
        }
    }
}

void check_bounds(void)
{
    static const uint32_t wrong_choices[] = {4, 0x100, 0x80000000, UINT32_MAX};
    struct ghixramel device = {0};
    for (uint32_t choice = 0; choice < 4; choice++) {
        want_power_on(choice, 0, 0);
        want_power_on(choice, all_pins(), 0);
        for EACH (i, far_too_large) {
            about("power-on with levels", far_too_large[i]);
            want("refusal", far_too_large[i] <= all_pins() ? GHIXRAMEL_DONE : GHIXRAMEL_BAD_ARGUMENT,
                 power_on_refusal(choice, far_too_large[i], USUAL_NUMBER, &device));
        }
        try_device_numbers(choice);
    }
    for EACH (i, wrong_choices) {
        about("power-on with address choice", wrong_choices[i]);
        want("refusal", GHIXRAMEL_BAD_ARGUMENT, power_on_refusal(wrong_choices[i], 0, USUAL_NUMBER, &device));
        want("refusal with levels too large", GHIXRAMEL_BAD_ARGUMENT, power_on_refusal(wrong_choices[i], UINT64_MAX, USUAL_NUMBER, &device));
    }
}
