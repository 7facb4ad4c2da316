/* The parts as the rules have them, and the library's calls for each: the checks are the same for all of them. */
#ifndef PARTS_H
#define PARTS_H

#include <ghixramel.h>

struct group {
    uint8_t first, last;
    uint8_t power_on;  /* of every register but the last, which has those of its bits */
    uint8_t last_bits; /* the bits that the last one has; the others have eight */
    uint8_t stored;    /* 1 if a write changes it */
};

struct calls {
    uint32_t (*power_on)(struct ghixramel *, uint32_t, uint64_t, uint64_t);
    uint32_t (*step)(struct ghixramel *, uint32_t, uint64_t, uint8_t *);
    uint32_t (*burst)(struct ghixramel *, const uint8_t *, uint64_t, uint64_t, uint8_t *, uint64_t, uint64_t *);
    uint32_t (*drives)(const struct ghixramel *, uint64_t *);
    uint32_t (*int_line)(const struct ghixramel *, uint8_t *);
    uint32_t (*show)(const struct ghixramel *, uint32_t, uint8_t *);
    uint32_t (*pack)(uint64_t *, const uint64_t *, const uint8_t *, const uint64_t *);
    uint32_t (*unpack)(const uint64_t *, uint64_t *, uint8_t *, uint64_t *);
    uint32_t (*to_image)(const struct ghixramel *, struct ghixramel_image *);
    uint32_t (*from_image)(struct ghixramel *, const struct ghixramel_image *);
    uint32_t (*marks_new)(struct ghixramel_marks *, uint64_t);
    uint32_t (*marked_step)(struct ghixramel *, struct ghixramel_marks *, uint32_t, uint64_t, uint8_t *);
    uint32_t (*marked_burst)(struct ghixramel *, struct ghixramel_marks *, const uint8_t *, uint64_t, uint64_t, uint8_t *, uint64_t,
                             uint64_t *);
    uint32_t (*sign_off)(const struct ghixramel *, struct ghixramel_marks *, uint32_t);
    uint32_t (*plan)(const uint8_t *, uint64_t, const uint8_t *, uint64_t, uint8_t *, uint64_t, uint64_t *);
};

struct part {
    uint32_t number; /* as a state has it */
    uint32_t pins, ports, digits;
    const struct group *groups;
    uint32_t group_count;
    /* the first register of each group that a test names */
    uint8_t output, polarity, configuration, strength, latch, pull_enable, pull_select, mask, port_kind, edge, clear, pin_kind, debounce;
    uint8_t debounce_bytes, debounce_count; /* a group of its own where it is not 0 */
    uint8_t reserved;                       /* a number that is */
    uint32_t setting_bytes, most_writes;
    uint64_t largest_rest; /* of a burst's third word, with levels */
    struct calls calls;
};

extern const struct part parts[];
extern const uint32_t part_count;

/* The part that calls and checks are about. */
extern const struct part *part;

static inline uint64_t all_pins(void)
{
    return ((uint64_t)1 << part->pins) - 1;
}

/* The planner's registers in its order. */
uint8_t setting_number(uint32_t place);

#endif
