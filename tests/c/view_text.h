/* What a host asks of a device, as the program trace answers; in the place of what was refused its refusal. */
#ifndef VIEW_TEXT_H
#define VIEW_TEXT_H

#include "guarded.h"
#include "parts.h"
#include "peer_text.h"

/* The line's level, subtracted, so that a result other than 0 and 1 is seen. */
static inline uint8_t *put_int(uint8_t *to, const struct ghixramel *device)
{
    uint8_t asserted[1] = {0};
    uint32_t refusal = guarded_int(device, asserted);
    return refusal ? put_refused(to, refusal) : put_byte(to, (uint8_t)('1' - asserted[0]));
}

static inline uint8_t *put_drives(uint8_t *to, const struct ghixramel *device)
{
    uint64_t drives[2] = {0};
    uint32_t refusal = guarded_drives(device, drives);
    if (refusal)
        return put_refused(to, refusal);
    to = put_pins(to, drives[0], part->digits);
    return put_pins(put_byte(to, '\t'), drives[1], part->digits);
}

#endif
