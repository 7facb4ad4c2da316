#include "parts.h"

/* A program over one part is linked with that one first. */
#ifndef FIRST_PART
#define FIRST_PART 0
#endif

static const struct group groups24[] = {
    {0x00, 0x02, 0x00, 0xFF, 0}, /* input port */
    {0x04, 0x06, 0xFF, 0xFF, 1}, /* output */
    {0x08, 0x0A, 0x00, 0xFF, 1}, /* polarity */
    {0x0C, 0x0E, 0xFF, 0xFF, 1}, /* configuration */
    {0x40, 0x45, 0xFF, 0xFF, 1}, /* drive strength */
    {0x48, 0x4A, 0x00, 0xFF, 1}, /* input latch */
    {0x4C, 0x4E, 0x00, 0xFF, 1}, /* pull enable */
    {0x50, 0x52, 0xFF, 0xFF, 1}, /* pull select */
    {0x54, 0x56, 0xFF, 0xFF, 1}, /* interrupt mask */
    {0x58, 0x5A, 0x00, 0xFF, 0}, /* interrupt status */
    {0x5C, 0x5C, 0x00, 0x07, 1}, /* output port kind */
    {0x60, 0x65, 0x00, 0xFF, 1}, /* interrupt edge */
    {0x68, 0x6A, 0x00, 0xFF, 0}, /* interrupt clear */
    {0x6C, 0x6E, 0x00, 0xFF, 0}, /* input status */
    {0x70, 0x72, 0x00, 0xFF, 1}, /* pin output kind */
    {0x74, 0x75, 0x00, 0xFF, 1}, /* debounce enable */
    {0x76, 0x76, 0x00, 0xFF, 1}, /* debounce count */
};

static const struct group groups34[] = {
    {0x00, 0x04, 0x00, 0x03, 0}, /* input port */
    {0x05, 0x09, 0xFF, 0x03, 1}, /* output */
    {0x0A, 0x0E, 0x00, 0x03, 1}, /* polarity */
    {0x0F, 0x13, 0xFF, 0x03, 1}, /* configuration */
    {0x30, 0x38, 0xFF, 0x0F, 1}, /* drive strength */
    {0x3A, 0x3E, 0x00, 0x03, 1}, /* input latch */
    {0x3F, 0x43, 0x00, 0x03, 1}, /* pull enable */
    {0x44, 0x48, 0xFF, 0x03, 1}, /* pull select */
    {0x49, 0x4D, 0xFF, 0x03, 1}, /* interrupt mask */
    {0x4E, 0x52, 0x00, 0x03, 0}, /* interrupt status */
    {0x53, 0x53, 0x00, 0x1F, 1}, /* output port kind */
    {0x54, 0x5C, 0x00, 0x0F, 1}, /* interrupt edge */
    {0x5E, 0x62, 0x00, 0x03, 0}, /* interrupt clear */
    {0x63, 0x67, 0x00, 0x03, 0}, /* input status */
    {0x68, 0x6C, 0x00, 0x03, 1}, /* pin output kind */
    {0x6D, 0x6F, 0x00, 0xFF, 1}, /* debounce */
};

#define COUNT(table) (sizeof(table) / sizeof *(table))

#define CALLS(prefix)                                                                                                                \
    {                                                                                                                                \
        prefix##_power_on, prefix##_step, prefix##_burst, prefix##_drives, prefix##_int, prefix##_show, prefix##_pack,               \
            prefix##_unpack, prefix##_to_image, prefix##_from_image, prefix##_marks_new, prefix##_marked_step,                       \
            prefix##_marked_burst, prefix##_sign_off, prefix##_plan                                                                  \
    }

const struct part parts[] = {
    {
        .number = 0, .pins = 24, .ports = 3, .digits = 6, .groups = groups24, .group_count = COUNT(groups24),
        .output = 0x04, .polarity = 0x08, .configuration = 0x0C, .strength = 0x40, .latch = 0x48, .pull_enable = 0x4C,
        .pull_select = 0x50, .mask = 0x54, .port_kind = 0x5C, .edge = 0x60, .clear = 0x68, .pin_kind = 0x70,
        .debounce = 0x74, .debounce_bytes = 2, .debounce_count = 0x76, .reserved = 0x03,
        .setting_bytes = 10, .most_writes = 16, .largest_rest = 0, .calls = CALLS(ghixramel),
    },
    {
        .number = 1, .pins = 34, .ports = 5, .digits = 9, .groups = groups34, .group_count = COUNT(groups34),
        .output = 0x05, .polarity = 0x0A, .configuration = 0x0F, .strength = 0x30, .latch = 0x3A, .pull_enable = 0x3F,
        .pull_select = 0x44, .mask = 0x49, .port_kind = 0x53, .edge = 0x54, .clear = 0x5E, .pin_kind = 0x68,
        .debounce = 0x6D, .debounce_bytes = 3, .debounce_count = 0, .reserved = 0x39,
        .setting_bytes = 16, .most_writes = 26, .largest_rest = 3, .calls = CALLS(ghixramel34),
    },
};

const uint32_t part_count = COUNT(parts);

const struct part *part = &parts[FIRST_PART];

uint8_t setting_number(uint32_t place)
{
    if (place < part->ports)
        return (uint8_t)(part->output + place);
    if (place < 2 * part->ports)
        return (uint8_t)(part->configuration + place - part->ports);
    return place == 2 * part->ports ? part->port_kind : (uint8_t)(part->pin_kind + place - 2 * part->ports - 1);
}
