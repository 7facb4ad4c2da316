/* A burst as the last fields of a line, and what it gives. */
#ifndef BURST_TEXT_H
#define BURST_TEXT_H

#include "guarded.h"
#include "image_lines.h"
#include "peer_text.h"

/* The number of events asked and the bytes of room, and the tab after each. */
enum { ASKED_BYTES = 16 + 1 + 4 + 1, MOST_BURST_BYTES = 3 + 17 + 2 * MOST_ROOM_BYTES + 1 + IMAGE_BYTES };
/* What the memory for results holds before. */
enum { OLD_ANSWER = 0x3C, OLD_DONE = 0x77 };

/* What a burst is lent beside a device. */
struct burst {
    uint64_t asked, room;
    uint8_t events[MOST_EVENT_BYTES];
    size_t event_bytes;
    uint8_t answers[MOST_ROOM_BYTES];
    uint64_t done[1];
};

static inline int read_events(const uint8_t *text, size_t digits, struct burst *burst)
{
    uint64_t value;
    if (digits % 2 != 0 || digits > 2 * MOST_EVENT_BYTES)
        return 0;
    burst->event_bytes = digits / 2;
    for (size_t i = 0; i < burst->event_bytes; i++) {
        if (!read_hex(text + 2 * i, 2, &value))
            return 0;
        burst->events[i] = (uint8_t)value;
    }
    return 1;
}

/* The fields before the events have fixed widths; `at` is NULL once something was wrong. */
static inline int read_burst(const uint8_t *at, size_t length, struct burst *burst)
{
    if (!field(field(at, 16, &burst->asked), 4, &burst->room) || burst->room > MOST_ROOM_BYTES)
        return 0;
    memset(burst->answers, OLD_ANSWER, sizeof burst->answers);
    burst->done[0] = OLD_DONE;
    return read_events(at + ASKED_BYTES, length - ASKED_BYTES, burst);
}

static inline uint8_t *put_image_after(uint8_t *to, const struct ghixramel *device)
{
    struct ghixramel_image image = {0};
    uint32_t refusal = guarded_to_image(device, &image);
    return refusal ? put_refused(to, refusal) : put_image(to, &image);
}

/* The refusal, the events done, all of the room and the image after. */
static inline uint8_t *put_burst(uint8_t *to, uint32_t refusal, const struct burst *burst, const struct ghixramel *device)
{
    to = put_byte(put_decimal(to, refusal), '\t');
    to = put_byte(put_number(to, burst->done[0]), '\t');
    for (uint64_t i = 0; i < burst->room; i++)
        to = put_hex(to, burst->answers[i], 2);
    return put_image_after(put_byte(to, '\t'), device);
}

#endif
