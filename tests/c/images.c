#include "images.h"

#include <libc.h>

const struct group *group_of(uint32_t number)
{
    for (uint32_t i = 0; i < part->group_count; i++)
        if (part->groups[i].first <= number && number <= part->groups[i].last)
            return &part->groups[i];
    return NULL;
}

uint8_t bits_of(uint32_t number)
{
    const struct group *group = group_of(number);
    if (!group)
        return 0;
    return number == group->last ? group->last_bits : 0xFF;
}

uint8_t stored_bits(uint32_t number)
{
    const struct group *group = group_of(number);
    return group && group->stored ? bits_of(number) : 0;
}

uint8_t power_on_entry(uint32_t number)
{
    const struct group *group = group_of(number);
    return group ? group->power_on & stored_bits(number) : 0;
}

const struct mix_part *mix_of_part(void)
{
    return part->pins == 24 ? &mix24 : &mix34;
}

uint64_t random_pins(uint64_t *random)
{
    uint64_t high = random_below(random, UINT32_MAX), low = random_below(random, 1 << 16);
    return (high << 16 | low) & all_pins();
}

/* Pin 8k + j is bit j of port k's register. */
static int bit_at(const struct ghixramel_image *image, uint32_t first, uint32_t pin)
{
    return image->registers[first + pin / 8] >> pin % 8 & 1;
}

static int pending(const struct ghixramel_image *image, uint32_t pin)
{
    int level = image->pins[0] >> pin & 1, reference = image->pins[1] >> pin & 1;
    int held = image->pins[2] >> pin & 1, edge = image->pins[3] >> pin & 1;
    if (image->registers[part->edge + pin / 4] >> 2 * (pin % 4) & 3)
        return edge;
    return bit_at(image, part->latch, pin) ? held : level != reference;
}

struct ghixramel_image kept(struct ghixramel_image image)
{
    image.status = 0;
    for (uint32_t pin = 0; pin < part->pins; pin++)
        if (bit_at(&image, part->configuration, pin) && !bit_at(&image, part->mask, pin) && pending(&image, pin))
            image.status |= (uint64_t)1 << pin;
    image.line = image.status == 0;
    return image;
}

static uint8_t random_pointer(uint64_t *random)
{
    const struct group *group = &part->groups[random_below(random, part->group_count)];
    return (uint8_t)(group->first + random_below(random, (uint32_t)group->last - group->first + 1));
}

struct ghixramel_image random_image(uint64_t *random)
{
    struct ghixramel_image image;
    for (int i = 0; i < 4; i++)
        image.pins[i] = random_pins(random);
    for (uint32_t number = 0; number < REGISTERS; number++)
        image.registers[number] = (uint8_t)random_below(random, 256) & stored_bits(number);
    image.pointer = random_pointer(random);
    image.bus = random_below(random, GHIXRAMEL_TELLING + 1);
    image.choice = random_below(random, 4);
    image.mode = random_below(random, 2);
    image.number = random_below(random, GHIXRAMEL_LARGEST_NUMBER + 1);
    image.place = random_below(random, GHIXRAMEL_NUMBER_BYTES);
    return kept(image);
}

struct ghixramel_image power_on_image(uint32_t choice, uint64_t levels)
{
    struct ghixramel_image image = {.pins = {levels, levels}, .bus = GHIXRAMEL_IDLE, .choice = choice, .line = 1, .number = USUAL_NUMBER};
    for (uint32_t number = 0; number < REGISTERS; number++)
        image.registers[number] = power_on_entry(number);
    return image;
}
