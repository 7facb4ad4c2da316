/* ghixramel: the PCAL6524 and its sister of 34 pins, the PCAL6534, in software, loss marks that outlive its resets, the
 * planner of quiet register writes, and the comparison of a recorded chip with the device. Link with libghixramel.a. What
 * is said of the PCAL6524's calls holds of the sister's, which come last.
 *
 * Every function gives 0, or the number of its refusal; refused, it changes nothing that it was lent, with one
 * exception: a burst, with marks or without, keeps what it did before the event that it refuses. No call needs a check
 * first. Nothing is allocated and nothing is kept between calls: state and marks lie in the caller's memory.
 *
 * Memory that is lent is initialised, that for results too: a reference in the proved code is to initialised memory.
 * What is lent to one call must not overlap, nor be NULL.
 *
 * Calls on different devices may run at the same time: the library has no data of its own (tests/host.sh links it with
 * nothing else and finds no data section), and a call touches only what it is lent. That is tested, not proved. */
#ifndef GHIXRAMEL_H
#define GHIXRAMEL_H

#include <stddef.h>
#include <stdint.h>

#ifdef __cplusplus
extern "C" {
#endif

/* The state of a device, made by ghixramel_power_on or ghixramel_from_image. What a word holds is the library's own
 * affair; whoever wants to read a state takes its image. A state says its part: words that are the packing of no
 * well-formed image of the call's own part are a broken image to every call that reads them, refusal 3, and so each
 * part's calls refuse the other's states. There is no padding: a state may be stored, sent and compared, and equal
 * states are equal bytes. */
struct ghixramel {
    uint64_t words[28];
};

/* What a state holds, to read or to build one. Status and line follow from pins and registers: an image whose status
 * or line is another than theirs is broken. It does not say its part: the call that takes it does. There is no padding
 * here either: equal images are equal bytes. */
struct ghixramel_image {
    uint64_t pins[4];       /* pin sets, pin 0 in the lowest bit: level, reference, held, edge */
    uint8_t registers[128]; /* one byte for each command number */
    uint64_t pointer;       /* a command number that is not reserved */
    uint64_t bus;           /* the bus state, as numbered below */
    uint64_t choice;        /* the address choice, 0 to 3 */
    uint64_t status;        /* the pins whose status bit is 1 */
    uint64_t line;          /* INT's level: 1 quiet, 0 asserted */
    uint64_t mode;          /* how the pointer steps: 0 in its group, 1 over the whole map */
    uint64_t number;        /* the device's own, below 2^24, which is read as its Device ID */
    uint64_t place;         /* the byte of it that is read next, 0 to 2, 0 the highest */
};

/* Loss marks, which stand beside a device: one bit for each pin, pin 0 in the lowest. A mark says that its pin has had a
 * loss, or may have had one, and that nobody has signed it off since; no reset takes it away. Marks are made by
 * ghixramel_marks_new, where it is said what they are for. They do not say their part: the call does, and marks of a pin
 * that its part does not have are broken, refusal 3. There is no padding here either. */
struct ghixramel_marks {
    uint64_t set;     /* the pins whose mark is set */
    uint64_t healthy; /* the pins whose healthy level is 1, as the marks were made with them */
};

/* C99 has no static assertion: an array of -1 bytes stops its compiler, so that no processor's layout goes unseen. */
#if defined(__cplusplus)
#define GHIXRAMEL_ASSERT(name, fact) static_assert(fact, #fact)
#elif __STDC_VERSION__ >= 201112L
#define GHIXRAMEL_ASSERT(name, fact) _Static_assert(fact, #fact)
#else
#define GHIXRAMEL_ASSERT(name, fact) typedef char ghixramel_assert_##name[(fact) ? 1 : -1]
#endif
/* The library takes a pointer to the words, and a pointer to the state is one; to both sets of the marks, and so is theirs. */
GHIXRAMEL_ASSERT(words, offsetof(struct ghixramel, words) == 0);
GHIXRAMEL_ASSERT(size, sizeof(struct ghixramel) == 224);
GHIXRAMEL_ASSERT(pins, offsetof(struct ghixramel_image, pins) == 0);
GHIXRAMEL_ASSERT(registers, offsetof(struct ghixramel_image, registers) == 32);
GHIXRAMEL_ASSERT(pointer, offsetof(struct ghixramel_image, pointer) == 160);
GHIXRAMEL_ASSERT(bus, offsetof(struct ghixramel_image, bus) == 168);
GHIXRAMEL_ASSERT(choice, offsetof(struct ghixramel_image, choice) == 176);
GHIXRAMEL_ASSERT(status, offsetof(struct ghixramel_image, status) == 184);
GHIXRAMEL_ASSERT(line, offsetof(struct ghixramel_image, line) == 192);
GHIXRAMEL_ASSERT(mode, offsetof(struct ghixramel_image, mode) == 200);
GHIXRAMEL_ASSERT(number, offsetof(struct ghixramel_image, number) == 208);
GHIXRAMEL_ASSERT(place, offsetof(struct ghixramel_image, place) == 216);
GHIXRAMEL_ASSERT(image_size, sizeof(struct ghixramel_image) == 224);
GHIXRAMEL_ASSERT(set, offsetof(struct ghixramel_marks, set) == 0);
GHIXRAMEL_ASSERT(healthy, offsetof(struct ghixramel_marks, healthy) == 8);
GHIXRAMEL_ASSERT(marks_size, sizeof(struct ghixramel_marks) == 16);
#undef GHIXRAMEL_ASSERT

/* Refusals. */
enum {
    GHIXRAMEL_DONE = 0,
    GHIXRAMEL_BAD_KIND = 1,     /* event kind above 5 */
    GHIXRAMEL_BAD_ARGUMENT = 2, /* byte, acknowledge bit, levels, choice, number of a device, register or pin, or a burst's third word out of range */
    GHIXRAMEL_BAD_IMAGE = 3,    /* broken: a number or a mark out of range, an entry where none is stored, a wrong status or line, or words of no image */
    GHIXRAMEL_NO_QUIET_WAY = 4, /* no list of writes gets there without disturbing a pin */
    GHIXRAMEL_BAD_SETTING = 5,  /* start or goal not ten bytes (the sister: sixteen), or with a bit that does not exist, as a 5C over 7 */
    GHIXRAMEL_BUFFER_SMALL = 6, /* plan buffer under GHIXRAMEL_PLAN_BYTES (the sister: GHIXRAMEL34_PLAN_BYTES) */
    GHIXRAMEL_BAD_BURST = 8,    /* bytes that are no whole events, more asked than given or allowed, or no room for the answers */
    GHIXRAMEL_NOT_HEALTHY = 13  /* sign-off of a pin whose status bit is 1, or whose level is not its healthy one */
};

/* Event kinds. */
enum {
    GHIXRAMEL_START = 0,
    GHIXRAMEL_STOP = 1,
    GHIXRAMEL_BYTE = 2,   /* argument: the byte from the master */
    GHIXRAMEL_FETCH = 3,  /* argument: 1 acknowledged, 0 not */
    GHIXRAMEL_LEVELS = 4, /* argument: the pins that are at 1 */
    GHIXRAMEL_RESET = 5
};

/* Answer kinds. */
enum {
    GHIXRAMEL_NOTHING = 0,
    GHIXRAMEL_ACK = 1,
    GHIXRAMEL_NAK = 2,
    GHIXRAMEL_READ = 3 /* a byte was read; answer[1] is it */
};

/* Bus states, as the image's `bus` has them. */
enum {
    GHIXRAMEL_IDLE = 0,
    GHIXRAMEL_OPENED = 1,
    GHIXRAMEL_CHOSEN = 2,
    GHIXRAMEL_FILLING = 3,
    GHIXRAMEL_SENDING = 4,
    GHIXRAMEL_CALL = 5,
    GHIXRAMEL_ARMED = 6,
    GHIXRAMEL_DEAF = 7,
    GHIXRAMEL_ASKING = 8,    /* F8h was seen: the Device ID of some device is asked for */
    GHIXRAMEL_NAMED = 9,     /* then this one's address byte */
    GHIXRAMEL_REOPENED = 10, /* then START again */
    GHIXRAMEL_TELLING = 11   /* then F9h: a fetch gives a byte of the number */
};

/* A setting is ten bytes, for the registers 04 05 06 0C 0D 0E 5C 70 71 72 in this order. */
enum { GHIXRAMEL_SETTING_BYTES = 10, GHIXRAMEL_MOST_WRITES = 16, GHIXRAMEL_PLAN_BYTES = 32 };

/* A device's number. A host's inventory reads its bytes, the highest first, and after the last the first again: START, F8h,
 * the device's address byte with either lowest bit, START, F9h, and fetches, the last of them not acknowledged. */
enum { GHIXRAMEL_NUMBER_BYTES = 3, GHIXRAMEL_LARGEST_NUMBER = 0xFFFFFF };

/* A device at power-on, at address choice 0 to 3, with these pin levels and this number, which no reset changes; what its
 * memory held does not matter. Refusal 2. */
uint32_t ghixramel_power_on(struct ghixramel *device, uint32_t choice, uint64_t levels, uint64_t number);

/* One event. answer[0] is the answer's kind, answer[1] the byte read, else 0. Refusals 3, 1, 2. */
uint32_t ghixramel_step(struct ghixramel *device, uint32_t kind, uint64_t argument, uint8_t answer[2]);

/* An event of a burst is GHIXRAMEL_EVENT_BYTES bytes: its kind, its argument and 0, four bytes each, the lowest first. */
enum { GHIXRAMEL_EVENT_BYTES = 12, GHIXRAMEL_MOST_EVENTS = 512 };

/* The first `asked` events in order, as that many calls of ghixramel_step; those after them are not looked at. done[0] is
 * how many were done, and the answers, two bytes each as a step has them, go to the start of their buffer; bytes past
 * them stay. Nothing needs to be aligned but the device and done.
 *
 * Refusal 8 comes first, and nothing at all is changed: event_bytes is no multiple of GHIXRAMEL_EVENT_BYTES, or `asked`
 * is over the events given, or over GHIXRAMEL_MOST_EVENTS, or answer_bytes is under 2 * asked. Then event by event 3, 1,
 * 2, as for a step; a third word other than 0 is 2 for every kind, START, STOP and reset too. A refused event ends the
 * burst: its number is returned, done[0] counts the events before it, and state and answers are as after them. Where
 * none is asked there is no refusal but 8, whatever the state. */
uint32_t ghixramel_burst(struct ghixramel *device, const uint8_t *events, uint64_t event_bytes, uint64_t asked,
                         uint8_t *answers, uint64_t answer_bytes, uint64_t done[1]);

/* The pins driven low, drives[0], and driven high, drives[1]; the others are released. Refusal 3. */
uint32_t ghixramel_drives(const struct ghixramel *device, uint64_t drives[2]);

/* asserted[0] is 1 if INT is asserted (the line low), else 0. Refusal 3. */
uint32_t ghixramel_int(const struct ghixramel *device, uint8_t asserted[1]);

/* shown[0] is the byte that a fetch of register `number` would show; nothing is settled. Refusals 3 and 2: reserved or over 7Fh. */
uint32_t ghixramel_show(const struct ghixramel *device, uint32_t number, uint8_t shown[1]);

/* The words of an image, and back, for a host that lays out its images itself; those on the structs come below.
 * rest is the pointer, the bus state, the address choice, the status, the line, the mode, the number and the place.
 * Refusal 3. */
uint32_t ghixramel_pack(uint64_t words[28], const uint64_t pins[4], const uint8_t registers[128], const uint64_t rest[8]);
uint32_t ghixramel_unpack(const uint64_t words[28], uint64_t pins[4], uint8_t registers[128], uint64_t rest[8]);

/* The image's numbers out of rest, if the call that filled it was not refused. */
static inline uint32_t ghixramel_image_rest(uint32_t refusal, const uint64_t rest[8], struct ghixramel_image *image)
{
    if (refusal == GHIXRAMEL_DONE) {
        image->pointer = rest[0];
        image->bus = rest[1];
        image->choice = rest[2];
        image->status = rest[3];
        image->line = rest[4];
        image->mode = rest[5];
        image->number = rest[6];
        image->place = rest[7];
    }
    return refusal;
}

/* The image of a state. Refusal 3. */
static inline uint32_t ghixramel_to_image(const struct ghixramel *device, struct ghixramel_image *image)
{
    uint64_t rest[8] = {0};
    return ghixramel_image_rest(ghixramel_unpack(device->words, image->pins, image->registers, rest), rest, image);
}

/* A device in the state that the image says; what its memory held does not matter. Refusal 3. */
static inline uint32_t ghixramel_from_image(struct ghixramel *device, const struct ghixramel_image *image)
{
    const uint64_t rest[8] = {image->pointer, image->bus,  image->choice, image->status,
                              image->line,    image->mode, image->number, image->place};
    return ghixramel_pack(device->words, image->pins, image->registers, rest);
}

/* What marks are for. A fibre opens, and INT is asserted. The host resets the device: the reset takes the present level for
 * the quiet one, so INT is quiet while the fibre is still open, and nothing in the device tells of it but a level that
 * nobody asks for. The mark of the pin is still set. It stays until somebody signs it off, and that is refused with 13 as
 * long as the fibre is open, or its status bit is 1.
 *
 * A supervisor that powers on makes its marks new, and then all are set: it knows nothing yet of any pin. From then on it
 * gives every event to ghixramel_marked_step or ghixramel_marked_burst; one that is given to ghixramel_step or
 * ghixramel_burst goes past the marks. Keep the marks with the same care as the state, in memory of the same kind, stored
 * and restored together with it. An image has none. */

/* Marks all set, with these healthy levels; what their memory held does not matter. Refusal 2: levels of 2^24 or more. */
uint32_t ghixramel_marks_new(struct ghixramel_marks *marks, uint64_t healthy);

/* One event: state and answer are those of ghixramel_step. A pin's mark is set if its status bit is 0 before the event and 1
 * after it, and by any reset, be it GHIXRAMEL_RESET or STOP in GHIXRAMEL_ARMED, that finds the status bit at 1. No event
 * clears a mark. Refusals 3, 1, 2; 3 is of the state and of the marks, `set` or `healthy` of 2^24 or more. */
uint32_t ghixramel_marked_step(struct ghixramel *device, struct ghixramel_marks *marks, uint32_t kind, uint64_t argument,
                               uint8_t answer[2]);

/* A burst as ghixramel_burst, of calls of ghixramel_marked_step: its events and answers, its refusals and their order, 3
 * of the marks too. After a refused event the marks are, with the state, as after the events before it. Where none is
 * asked there is no refusal but 8, whatever state and marks are. */
uint32_t ghixramel_marked_burst(struct ghixramel *device, struct ghixramel_marks *marks, const uint8_t *events,
                                uint64_t event_bytes, uint64_t asked, uint8_t *answers, uint64_t answer_bytes,
                                uint64_t done[1]);

/* Somebody has seen to the pin: its mark is cleared, or stays clear; nothing else clears one. Refusals 3, of the state and of
 * the marks; 2, a pin over 23; 13, unless the pin's status bit is 0, as an output's is, and its level is its bit in
 * `healthy`, also where the mark is clear already. It is the level itself, whatever polarity is set and a fetch shows. */
uint32_t ghixramel_sign_off(const struct ghixramel *device, struct ghixramel_marks *marks, uint32_t pin);

/* The writes that lead from one setting to another: writes[0] pairs register, value from the start of the buffer,
 * at most GHIXRAMEL_MOST_WRITES; bytes past them stay. Refusals 5, 6, 4. Lengths have 64 bits on every processor. */
uint32_t ghixramel_plan(const uint8_t *start, uint64_t start_bytes, const uint8_t *goal, uint64_t goal_bytes,
                        uint8_t *buffer, uint64_t buffer_bytes, uint64_t writes[1]);

/* Verdicts of a comparison. */
enum {
    GHIXRAMEL_AGREES = 0,
    GHIXRAMEL_DEPARTS = 1,    /* a line is another than the device's */
    GHIXRAMEL_ENDS_EARLY = 2, /* no line departs, and some are missing */
    GHIXRAMEL_LEFT_OVER = 3   /* no line departs, and some come after the device's last */
};

/* Whether the answers that a bench recorded of a real chip are those of the device. Both texts are as the program trace
 * has them: it takes the events, and writes the answers. The call serves both parts, and the sister has none of its own:
 * the events' own lines, `device` and `device34`, say the part.
 *
 * verdict[0] is the verdict. part[0] and part[1] are the offset and the length, in the answers, of the line that departs
 * or of the first line that is left over, without its newline. If the answers agree or end early, they are answer_bytes
 * and 0: the empty part at the end.
 *
 * The answers are held line by line against what trace writes for the events; line one is the header. The first line that
 * differs decides, before the question whether lines are missing or left over. A last line without its newline counts if
 * it holds a byte: the expected line agrees, a proper beginning of it departs. An empty line is a line. A line with a
 * carriage return differs. An unreadable event expects `refused`, a tab and 7. Empty answers end early.
 *
 * Either text may have any length, also none; its pointer is then still one to a readable byte. There is no refusal. */
uint32_t ghixramel_compare(const uint8_t *events, uint64_t event_bytes, const uint8_t *answers, uint64_t answer_bytes,
                           uint8_t verdict[1], uint64_t part[2]);

/* The sister, the PCAL6534, on the same structs: each call as its namesake, by the same code, with its own registers
 * and 34 pins. What is another number than the PCAL6524's:
 *
 * - levels and pin sets, those of marks too, are below 2^34, nine hex digits; pins 34 to 39 do not exist: they are never
 *   driven and in no set, and the bits of their places in a register are ignored when written and read 0. Set in an image
 *   or in marks they are refusal 3, and a sign-off of a pin over 33 is 2;
 * - an event of a burst has the upper half of its argument in its third word: levels up to 2^34 - 1 pass, a byte or an
 *   acknowledge bit with an upper half is 2, START, STOP and reset ignore all of it;
 * - a setting is sixteen bytes, for the registers 05-09 0F-13 53 68-6C in this order; a plan has at most 26 writes. */
enum { GHIXRAMEL34_SETTING_BYTES = 16, GHIXRAMEL34_MOST_WRITES = 26, GHIXRAMEL34_PLAN_BYTES = 52 };

uint32_t ghixramel34_power_on(struct ghixramel *device, uint32_t choice, uint64_t levels, uint64_t number);
uint32_t ghixramel34_step(struct ghixramel *device, uint32_t kind, uint64_t argument, uint8_t answer[2]);
uint32_t ghixramel34_burst(struct ghixramel *device, const uint8_t *events, uint64_t event_bytes, uint64_t asked,
                           uint8_t *answers, uint64_t answer_bytes, uint64_t done[1]);
uint32_t ghixramel34_drives(const struct ghixramel *device, uint64_t drives[2]);
uint32_t ghixramel34_int(const struct ghixramel *device, uint8_t asserted[1]);
uint32_t ghixramel34_show(const struct ghixramel *device, uint32_t number, uint8_t shown[1]);
uint32_t ghixramel34_pack(uint64_t words[28], const uint64_t pins[4], const uint8_t registers[128], const uint64_t rest[8]);
uint32_t ghixramel34_unpack(const uint64_t words[28], uint64_t pins[4], uint8_t registers[128], uint64_t rest[8]);

uint32_t ghixramel34_marks_new(struct ghixramel_marks *marks, uint64_t healthy);
uint32_t ghixramel34_marked_step(struct ghixramel *device, struct ghixramel_marks *marks, uint32_t kind, uint64_t argument,
                                 uint8_t answer[2]);
uint32_t ghixramel34_marked_burst(struct ghixramel *device, struct ghixramel_marks *marks, const uint8_t *events,
                                  uint64_t event_bytes, uint64_t asked, uint8_t *answers, uint64_t answer_bytes,
                                  uint64_t done[1]);
uint32_t ghixramel34_sign_off(const struct ghixramel *device, struct ghixramel_marks *marks, uint32_t pin);

uint32_t ghixramel34_plan(const uint8_t *start, uint64_t start_bytes, const uint8_t *goal, uint64_t goal_bytes,
                          uint8_t *buffer, uint64_t buffer_bytes, uint64_t writes[1]);

static inline uint32_t ghixramel34_to_image(const struct ghixramel *device, struct ghixramel_image *image)
{
    uint64_t rest[8] = {0};
    return ghixramel_image_rest(ghixramel34_unpack(device->words, image->pins, image->registers, rest), rest, image);
}

static inline uint32_t ghixramel34_from_image(struct ghixramel *device, const struct ghixramel_image *image)
{
    const uint64_t rest[8] = {image->pointer, image->bus,  image->choice, image->status,
                              image->line,    image->mode, image->number, image->place};
    return ghixramel34_pack(device->words, image->pins, image->registers, rest);
}

#ifdef __cplusplus
}
#endif

#endif
