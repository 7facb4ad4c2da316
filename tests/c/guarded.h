/* The library's calls for the part that the checks are about (parts.h), each watched: made in memory with guard bytes around
 * every array and on a stack of its own, and once more from the same beginning, with state and marks or the texts elsewhere in memory
 * and the image as the struct where it was arrays. Checked each time: a refused call changed no byte, another only its results, and
 * a burst that ended early only those of the events that it counts; both calls gave the same, so nothing was kept in between
 * and the place did not matter. An image that was taken comes out as the same bytes; one that was given makes the same state
 * again, byte for byte. */
#ifndef GUARDED_H
#define GUARDED_H

#include <ghixramel.h>

/* What is lent to the planner may be this long, to a burst so many events and so much room for answers, to a comparison each text. */
enum { MOST_LENT_BYTES = 64, MOST_EVENT_BYTES = 515 * GHIXRAMEL_EVENT_BYTES, MOST_ROOM_BYTES = 515 * 2 + 1, MOST_TEXT_BYTES = 512 * 1024 };

uint32_t guarded_power_on(struct ghixramel *device, uint32_t choice, uint64_t levels, uint64_t number);
uint32_t guarded_step(struct ghixramel *device, uint32_t kind, uint64_t argument, uint8_t answer[2]);
uint32_t guarded_drives(const struct ghixramel *device, uint64_t drives[2]);
uint32_t guarded_int(const struct ghixramel *device, uint8_t asserted[1]);
uint32_t guarded_show(const struct ghixramel *device, uint32_t number, uint8_t shown[1]);
uint32_t guarded_from_image(struct ghixramel *device, const struct ghixramel_image *image);
uint32_t guarded_to_image(const struct ghixramel *device, struct ghixramel_image *image);

uint32_t guarded_burst(struct ghixramel *device, const uint8_t *events, uint64_t event_bytes, uint64_t asked, uint8_t *answers,
                       uint64_t answer_bytes, uint64_t done[1]);

uint32_t guarded_marks_new(struct ghixramel_marks *marks, uint64_t healthy);
uint32_t guarded_marked_step(struct ghixramel *device, struct ghixramel_marks *marks, uint32_t kind, uint64_t argument, uint8_t answer[2]);
uint32_t guarded_marked_burst(struct ghixramel *device, struct ghixramel_marks *marks, const uint8_t *events, uint64_t event_bytes,
                              uint64_t asked, uint8_t *answers, uint64_t answer_bytes, uint64_t done[1]);
uint32_t guarded_sign_off(const struct ghixramel *device, struct ghixramel_marks *marks, uint32_t pin);

/* A device in the state of the image; of a broken image none, so that every call on it is refused with 3. */
struct ghixramel guarded_device(const struct ghixramel_image *image);

uint32_t guarded_plan(const uint8_t *start, uint64_t start_bytes, const uint8_t *goal, uint64_t goal_bytes, uint8_t *buffer,
                      uint64_t buffer_bytes, uint64_t writes[1]);

/* The texts say their parts themselves. */
uint32_t guarded_compare(const uint8_t *events, uint64_t event_bytes, const uint8_t *answers, uint64_t answer_bytes, uint8_t verdict[1],
                         uint64_t part[2]);

/* Checks that no call so far used too much stack, and prints the most that each function used, whatever its part. */
void check_stacks(void);

#endif
