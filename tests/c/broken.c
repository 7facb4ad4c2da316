/* Refusal 3: every way that an image is broken, and that the words of a state are; and the bounds that still pass. Each is broken in
 * one way only: status and line follow what is changed, so that a wrong one does not hide it. */
#include "checks.h"
#include "guarded.h"
#include "host_checks.h"
#include "images.h"
#include "master.h"
#include "mix.h"
#include "refused.h"
#include "words.h"

#include <libc.h>

enum { RANDOM_IMAGES = 3 / ONE_IN, SEED = 1 };

/* Of every part. */
static const struct ghixramel_marks whole_marks = {0};

/* 3 comes before 1 and 2. */
static void want_broken(const char *topic, uint64_t detail, const struct ghixramel *device)
{
    about(topic, detail);
    for (uint32_t kind = 0; kind < KINDS; kind++)
        want("refusal of a step", GHIXRAMEL_BAD_IMAGE, step_refusal(device, kind, 0));
    want("refusal of a step of unknown kind", GHIXRAMEL_BAD_IMAGE, step_refusal(device, 6, 0));
    want("refusal of a step with a byte too large", GHIXRAMEL_BAD_IMAGE, step_refusal(device, GHIXRAMEL_BYTE, 0x100));
    want("refusal of a step with levels too large", GHIXRAMEL_BAD_IMAGE, step_refusal(device, GHIXRAMEL_LEVELS, all_pins() + 1));
    want("refusal of drives", GHIXRAMEL_BAD_IMAGE, drives_refusal(device));
    want("refusal of INT", GHIXRAMEL_BAD_IMAGE, int_refusal(device));
    want("refusal of show", GHIXRAMEL_BAD_IMAGE, show_refusal(device, 0x00));
    want("refusal of show of a reserved number", GHIXRAMEL_BAD_IMAGE, show_refusal(device, part->reserved));
    want("refusal of show of a number too large", GHIXRAMEL_BAD_IMAGE, show_refusal(device, 0x100));
    want("refusal of to_image", GHIXRAMEL_BAD_IMAGE, to_image_refusal(device));
    want("refusal of a burst", GHIXRAMEL_BAD_IMAGE, burst_refusal(device, GHIXRAMEL_START, 0, 0));
    want("refusal of a marked step", GHIXRAMEL_BAD_IMAGE, marked_step_refusal(device, &whole_marks, GHIXRAMEL_START, 0));
    want("refusal of a marked step of unknown kind", GHIXRAMEL_BAD_IMAGE, marked_step_refusal(device, &whole_marks, 6, 0));
    want("refusal of a marked burst", GHIXRAMEL_BAD_IMAGE, marked_burst_refusal(device, &whole_marks, GHIXRAMEL_START, 0, 0));
    want("refusal of a sign-off", GHIXRAMEL_BAD_IMAGE, sign_off_refusal(device, &whole_marks, 0));
    want("refusal of a sign-off of no pin", GHIXRAMEL_BAD_IMAGE, sign_off_refusal(device, &whole_marks, part->pins));
}

static void want_whole(const char *topic, uint64_t detail, const struct ghixramel *device)
{
    about(topic, detail);
    for (uint32_t kind = 0; kind < KINDS; kind++)
        want("refusal of a step", GHIXRAMEL_DONE, step_refusal(device, kind, 0));
    want("refusal of drives", GHIXRAMEL_DONE, drives_refusal(device));
    want("refusal of INT", GHIXRAMEL_DONE, int_refusal(device));
    want("refusal of show", GHIXRAMEL_DONE, show_refusal(device, 0x00));
    want("refusal of to_image", GHIXRAMEL_DONE, to_image_refusal(device));
    want("refusal of a burst", GHIXRAMEL_DONE, burst_refusal(device, GHIXRAMEL_START, 0, 0));
    want("refusal of a marked step", GHIXRAMEL_DONE, marked_step_refusal(device, &whole_marks, GHIXRAMEL_START, 0));
    want("refusal of a marked burst", GHIXRAMEL_DONE, marked_burst_refusal(device, &whole_marks, GHIXRAMEL_START, 0, 0));
    want("refusal of a sign-off of no pin", GHIXRAMEL_BAD_ARGUMENT, sign_off_refusal(device, &whole_marks, part->pins));
}

/* Whatever the memory held: a device, or none. */
static void want_image_broken(const char *topic, uint64_t detail, const struct ghixramel_image *image)
{
    struct ghixramel zeros = {0}, made = device_with(2, 0x5A5A5A), none;
    memset(&none, 0xEE, sizeof none);
    about(topic, detail);
    want("refusal of from_image over zeros", GHIXRAMEL_BAD_IMAGE, guarded_from_image(&zeros, image));
    want("refusal of from_image over a device", GHIXRAMEL_BAD_IMAGE, guarded_from_image(&made, image));
    want("refusal of from_image over no device", GHIXRAMEL_BAD_IMAGE, guarded_from_image(&none, image));
}

static void want_image_whole(const char *topic, uint64_t detail, const struct ghixramel_image *image)
{
    about(topic, detail);
    struct ghixramel device = device_from(image);
    want_whole(topic, detail, &device);
}

static void try_bus_numbers(const struct ghixramel_image *whole)
{
    for (uint32_t value = 0; value <= UINT8_MAX; value++) {
        struct ghixramel_image image = *whole;
        image.pointer = value;
        (group_of(value) ? want_image_whole : want_image_broken)("pointer", value, &image);
        image = *whole;
        image.bus = value;
        (value <= GHIXRAMEL_TELLING ? want_image_whole : want_image_broken)("bus state", value, &image);
        image = *whole;
        image.choice = value;
        (value < 4 ? want_image_whole : want_image_broken)("address choice", value, &image);
        image = *whole;
        image.mode = value;
        (value < 2 ? want_image_whole : want_image_broken)("mode", value, &image);
        image = *whole;
        image.place = value;
        (value < GHIXRAMEL_NUMBER_BYTES ? want_image_whole : want_image_broken)("place", value, &image);
    }
}

/* Added to a number that may stand, so that a cut-off number would pass. */
static void try_large_bus_numbers(const struct ghixramel_image *whole)
{
    for (int bit = 8; bit < 64; bit++) {
        struct ghixramel_image image = *whole;
        image.pointer |= (uint64_t)1 << bit;
        want_image_broken("pointer", image.pointer, &image);
        image = *whole;
        image.bus |= (uint64_t)1 << bit;
        want_image_broken("bus state", image.bus, &image);
        image = *whole;
        image.choice |= (uint64_t)1 << bit;
        want_image_broken("address choice", image.choice, &image);
        image = *whole;
        image.mode |= (uint64_t)1 << bit;
        want_image_broken("mode", image.mode, &image);
        image = *whole;
        image.place |= (uint64_t)1 << bit;
        want_image_broken("place", image.place, &image);
    }
}

/* Each bit that a number has none of, added to one that may stand and alone. */
static void try_device_numbers(const struct ghixramel_image *whole)
{
    struct ghixramel_image image = *whole;
    image.number = 0;
    want_image_whole("device's number", image.number, &image);
    image.number = GHIXRAMEL_LARGEST_NUMBER;
    want_image_whole("device's number", image.number, &image);
    for (int bit = 8 * GHIXRAMEL_NUMBER_BYTES; bit < 64; bit++) {
        image.number = whole->number | (uint64_t)1 << bit;
        want_image_broken("device's number", image.number, &image);
        image.number = (uint64_t)1 << bit;
        want_image_broken("device's number", image.number, &image);
    }
    image.number = UINT64_MAX;
    want_image_broken("device's number", image.number, &image);
}

static struct ghixramel_image with_pins(const struct ghixramel_image *whole, int set, uint64_t pins)
{
    struct ghixramel_image image = *whole;
    image.pins[set] = pins;
    return kept(image);
}

static void try_pin_sets(const struct ghixramel_image *whole)
{
    static const char *const names[4] = {"level", "reference", "held", "edge"};
    for (int set = 0; set < 4; set++) {
        struct ghixramel_image image = with_pins(whole, set, all_pins());
        want_image_whole(names[set], all_pins(), &image);
        for (uint32_t bit = part->pins; bit < 64; bit++) {
            image = with_pins(whole, set, (uint64_t)1 << bit);
            want_image_broken(names[set], image.pins[set], &image);
        }
        image = with_pins(whole, set, UINT64_MAX);
        want_image_broken(names[set], UINT64_MAX, &image);
    }
}

static struct ghixramel_image with_entry(const struct ghixramel_image *whole, uint32_t number, uint32_t value)
{
    struct ghixramel_image image = *whole;
    image.registers[number] = (uint8_t)value;
    return kept(image);
}

static void try_entries(const struct ghixramel_image *whole)
{
    for (uint32_t number = 0; number < REGISTERS; number++) {
        struct ghixramel_image image = with_entry(whole, number, stored_bits(number));
        want_image_whole("all bits set that are stored, in entry", number, &image);
        for (int bit = 0; bit < 8; bit++) {
            image = with_entry(whole, number, 1u << bit);
            if (~stored_bits(number) & 1 << bit)
                want_image_broken("a bit set that is not stored, in entry", number, &image);
        }
        image = with_entry(whole, number, 0xFF);
        if (stored_bits(number) != 0xFF)
            want_image_broken("all bits set, in entry", number, &image);
    }
    for (uint32_t value = bits_of(part->port_kind) + 1u; value <= UINT8_MAX; value++) {
        struct ghixramel_image image = with_entry(whole, part->port_kind, value);
        want_image_broken("port kind", value, &image);
    }
}

/* A status bit too many or too few, past the pins too, with the line as it was and with the one that would fit it. */
static void try_status(const struct ghixramel_image *whole)
{
    for (int bit = 0; bit < 64; bit++) {
        struct ghixramel_image image = *whole;
        image.status ^= (uint64_t)1 << bit;
        want_image_broken("status", image.status, &image);
        image.line = image.status == 0;
        want_image_broken("status with the line that fits it", image.status, &image);
    }
}

/* The other one, and numbers that are neither. */
static void try_lines(const struct ghixramel_image *whole)
{
    for (int bit = 0; bit < 64; bit++) {
        struct ghixramel_image image = *whole;
        image.line ^= (uint64_t)1 << bit;
        want_image_broken("line", image.line, &image);
        image.line = (uint64_t)1 << bit;
        if (bit > 0)
            want_image_broken("line", image.line, &image);
    }
}

static void try_image(const struct ghixramel_image *whole)
{
    try_bus_numbers(whole);
    try_large_bus_numbers(whole);
    try_device_numbers(whole);
    try_pin_sets(whole);
    try_entries(whole);
    try_status(whole);
    try_lines(whole);
}

static int is_kept(uint32_t word)
{
    return word == STATUS_WORD || word == LINE_WORD;
}

/* Some numbers have no bit too many and cannot stand. */
static int has_gaps(uint32_t word)
{
    return word == POINTER_WORD || word == BUS_WORD || word == PLACE_WORD;
}

static struct ghixramel with_word(const struct ghixramel *whole, uint32_t word, uint64_t value)
{
    struct ghixramel device = *whole;
    device.words[word] = value;
    return is_kept(word) ? device : kept_words(device);
}

static void want_word_broken(const struct ghixramel *whole, uint32_t word, uint64_t value)
{
    struct ghixramel device = with_word(whole, word, value);
    want_broken("broken word", word, &device);
}

static void want_word_whole(const struct ghixramel *whole, uint32_t word, uint64_t value)
{
    struct ghixramel device = with_word(whole, word, value);
    want_whole("word at its bounds", word, &device);
}

/* Added to what stands there, and alone. */
static void try_bits(const struct ghixramel *whole)
{
    for (uint32_t word = 0; word < WORDS; word++) {
        for (int bit = 0; bit < 64; bit++) {
            uint64_t value = (uint64_t)1 << bit;
            if (bits_of_word(word) & value)
                continue;
            want_word_broken(whole, word, whole->words[word] | value);
            want_word_broken(whole, word, value);
        }
        want_word_broken(whole, word, UINT64_MAX);
        if (is_kept(word) || word == PART_WORD)
            continue;
        want_word_whole(whole, word, 0);
        if (!has_gaps(word))
            want_word_whole(whole, word, bits_of_word(word));
    }
}

/* Each status bit the other way, with the line as it was and with the one that would fit; and the line the other way. */
static void try_kept_words(const struct ghixramel *whole)
{
    for (uint32_t bit = 0; bit < part->pins; bit++) {
        struct ghixramel device = with_word(whole, STATUS_WORD, whole->words[STATUS_WORD] ^ (uint64_t)1 << bit);
        want_broken("status word", device.words[STATUS_WORD], &device);
        device.words[LINE_WORD] = device.words[STATUS_WORD] == 0;
        want_broken("status word with the line that fits it", device.words[STATUS_WORD], &device);
    }
    want_word_broken(whole, LINE_WORD, whole->words[LINE_WORD] ^ 1);
}

/* Each word that they come of, changed without them. */
static void try_words_they_come_of(const struct ghixramel *whole)
{
    for (uint32_t word = 0; word < WORDS; word++)
        for (int bit = 0; bit < 64; bit++) {
            struct ghixramel device = *whole;
            device.words[word] ^= bits_of_word(word) & (uint64_t)1 << bit;
            struct ghixramel right = kept_words(device);
            if (!is_kept(word) && word != PART_WORD && right.words[STATUS_WORD] != device.words[STATUS_WORD])
                want_broken("status of another moment, changed word", word, &device);
        }
}

/* Two words with the same wrong bit, which a sum or a difference would lose. */
static void try_pairs(const struct ghixramel *whole)
{
    for (uint32_t one = 0; one < WORDS; one++)
        for (uint32_t other = 0; other < one; other++) {
            struct ghixramel device = *whole;
            device.words[one] |= (uint64_t)1 << 63;
            device.words[other] |= (uint64_t)1 << 63;
            want_broken("broken words", one << 8 | other, &device);
        }
}

static void try_gaps(const struct ghixramel *whole)
{
    for (uint32_t value = 0; value <= UINT8_MAX; value++) {
        (group_of(value) ? want_word_whole : want_word_broken)(whole, POINTER_WORD, value);
        (value <= GHIXRAMEL_TELLING ? want_word_whole : want_word_broken)(whole, BUS_WORD, value);
        (value < GHIXRAMEL_NUMBER_BYTES ? want_word_whole : want_word_broken)(whole, PLACE_WORD, value);
    }
}

/* A state says its part: any other number there, and whatever is well formed for another part, is no state of this one. */
static void try_part_numbers(const struct ghixramel *whole)
{
    for (uint64_t number = 0; number <= UINT8_MAX; number++)
        (number == part->number ? want_word_whole : want_word_broken)(whole, PART_WORD, number);
}

/* No pin, line quiet: what every part has, but for its number; and with as many pins as the sister has. */
static void try_plain_states(void)
{
    struct ghixramel plain = {0};
    plain.words[LINE_WORD] = 1;
    for (uint64_t number = 0; number <= UINT8_MAX; number++) {
        plain.words[PART_WORD] = number;
        (number == part->number ? want_whole : want_broken)("plain state of part", number, &plain);
    }
    for (int set = 0; set < 4; set++)
        plain.words[set] = 0x3FFFFFFFF;
    plain.words[PART_WORD] = 1 - part->number;
    want_broken("the other part's number, pins set", 0x3FFFFFFFF, &plain);
}

/* The states that the other parts' own calls make, at power-on and after it. */
static void try_other_parts(void)
{
    const struct part *tried = part;
    for (uint32_t i = 0; i < part_count; i++) {
        uint64_t random = SEED;
        if (&parts[i] == tried)
            continue;
        for (int n = 0; n < RANDOM_IMAGES + 1; n++) {
            part = &parts[i];
            struct ghixramel_image image = n == 0 ? power_on_image(1, 0x5A) : random_image(&random);
            struct ghixramel others = device_from(&image);
            part = tried;
            want_broken("state that another part's call made", (uint64_t)n, &others);
            if (n == 0)
                want_image_broken("image of another part at power-on", i, &image);
        }
    }
}

/* Zeros too: their line is asserted, and nothing pends. */
static void try_all_words(void)
{
    for (uint32_t byte = 0; byte <= UINT8_MAX; byte++) {
        struct ghixramel device;
        memset(&device, (int)byte, sizeof device);
        want_broken("every byte of a state", byte, &device);
    }
}

static void try_words(const struct ghixramel_image *image)
{
    struct ghixramel whole = device_from(image);
    want_whole("the words themselves", 0, &whole);
    try_bits(&whole);
    try_kept_words(&whole);
    try_words_they_come_of(&whole);
    try_pairs(&whole);
    try_gaps(&whole);
    try_part_numbers(&whole);
}

void check_broken(void)
{
    struct ghixramel_image image = power_on_image(0, 0);
    uint64_t random = SEED;
    try_plain_states();
    try_other_parts();
    try_all_words();
    try_image(&image);
    try_words(&image);
    for (int i = 0; i < RANDOM_IMAGES; i++) {
        image = random_image(&random);
        try_image(&image);
        try_words(&image);
    }
}
