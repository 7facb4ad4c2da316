#include "words.h"

#include "images.h"

uint64_t bits_of_word(uint32_t word)
{
    switch (word) {
    case PORT_KIND_WORD:
        return ((uint64_t)1 << part->ports) - 1;
    case DEBOUNCE_WORD:
        return ((uint64_t)1 << 8 * part->debounce_bytes) - 1;
    case DEBOUNCE_COUNT_WORD:
        return part->debounce_count ? 0xFF : 0;
    case LINE_WORD:
        return 1;
    case POINTER_WORD:
        return 0x7F;
    case BUS_WORD:
        return 0x0F;
    case CHOICE_WORD:
        return 0x03;
    case MODE_WORD:
        return 0x01;
    case NUMBER_WORD:
        return GHIXRAMEL_LARGEST_NUMBER;
    case PLACE_WORD:
        return 0x03;
    case PART_WORD:
        return part->number;
    default: /* a pin set */
        return all_pins();
    }
}

static uint64_t bytes_at(const struct ghixramel_image *image, uint32_t first, int count)
{
    uint64_t bytes = 0;
    for (int i = 0; i < count; i++)
        bytes |= (uint64_t)image->registers[first + (uint32_t)i] << 8 * i;
    return bytes;
}

/* The low or the high bit of each pin's field of two. */
static uint64_t field_bits(const struct ghixramel_image *image, uint32_t first, int high)
{
    uint64_t pins = 0;
    for (uint32_t pin = 0; pin < part->pins; pin++)
        pins |= (uint64_t)(image->registers[first + pin / 4] >> (2 * (pin % 4) + (uint32_t)high) & 1) << pin;
    return pins;
}

static uint64_t pins_at(const struct ghixramel_image *image, uint32_t first)
{
    return bytes_at(image, first, (int)part->ports);
}

struct ghixramel words_of(const struct ghixramel_image *image)
{
    return (struct ghixramel){{
        image->pins[0], image->pins[1], image->pins[2], image->pins[3],
        pins_at(image, part->configuration), pins_at(image, part->latch), pins_at(image, part->mask),
        bytes_at(image, part->port_kind, 1),
        field_bits(image, part->edge, 0), field_bits(image, part->edge, 1),
        pins_at(image, part->output), pins_at(image, part->polarity), pins_at(image, part->pin_kind),
        field_bits(image, part->strength, 0), field_bits(image, part->strength, 1),
        pins_at(image, part->pull_enable), pins_at(image, part->pull_select),
        bytes_at(image, part->debounce, part->debounce_bytes), part->debounce_count ? bytes_at(image, part->debounce_count, 1) : 0,
        image->status, image->line,
        image->pointer, image->bus, image->choice, image->mode,
        image->number, image->place,
        part->number,
    }};
}

struct ghixramel kept_words(struct ghixramel device)
{
    uint64_t *w = device.words, by_edge = w[8] | w[9];
    uint64_t by_level = (w[5] & w[2]) | (~w[5] & (w[0] ^ w[1]));
    w[STATUS_WORD] = all_pins() & w[4] & ~w[6] & ((by_edge & w[3]) | (~by_edge & by_level));
    w[LINE_WORD] = w[STATUS_WORD] == 0;
    return device;
}
