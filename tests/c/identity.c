/* The Device ID: what each event does in each bus state, as the rules' table has it, then readings as a host makes them; all of it by
 * single steps and in bursts alike. */
#include "checks.h"
#include "event_bytes.h"
#include "guarded.h"
#include "host_checks.h"
#include "images.h"
#include "master.h"

#include <libc.h>

enum { EVENT = GHIXRAMEL_EVENT_BYTES, MOST_SAID = 24, STRAY_BYTE = 0xFF, SEED = 6 };

static uint32_t one_number(const uint8_t answer[2])
{
    return (uint32_t)answer[0] << 8 | answer[1];
}

/* A step, and a burst of one event: both give the same. */
static uint32_t answer_both_ways(struct ghixramel *device, uint32_t kind, uint64_t argument)
{
    struct ghixramel in_burst = *device;
    uint8_t event[EVENT], answer[2] = {0};
    uint64_t done[1] = {0};
    put_event(event, kind, (uint32_t)argument, (uint32_t)(argument >> 32));
    uint32_t stepped = answer_to(device, kind, argument);
    want("refusal of a burst", GHIXRAMEL_DONE, guarded_burst(&in_burst, event, sizeof event, 1, answer, sizeof answer, done));
    want("answer in a burst", stepped, one_number(answer));
    want("state differs after a burst", 0, memcmp(device, &in_burst, sizeof in_burst) != 0);
    return stepped;
}

/* All of the image after is as wanted: what is not said to change stays. */
static void want_after(const struct ghixramel_image *before, uint32_t kind, uint64_t argument, uint32_t answer,
                       const struct ghixramel_image *after)
{
    struct ghixramel device = device_from(before);
    want("answer", answer, answer_both_ways(&device, kind, argument));
    struct ghixramel_image got = image_of(&device);
    want("bus state", after->bus, got.bus);
    want("place", after->place, got.place);
    want("image differs", 0, memcmp(after, &got, sizeof got) != 0);
}

/* What the event does to pins, registers and pointer is not looked at. */
static void want_same_id(const struct ghixramel_image *before, uint32_t kind, uint64_t argument)
{
    struct ghixramel device = device_from(before);
    answer_both_ways(&device, kind, argument);
    struct ghixramel_image got = image_of(&device);
    want("bus state", before->bus, got.bus);
    want("mode", before->mode, got.mode);
    want("device's number", before->number, got.number);
    want("place", before->place, got.place);
}

static int is_ours(const struct ghixramel_image *image, uint32_t byte)
{
    return byte - byte % 2 == address_byte((uint32_t)image->choice);
}

/* Ours to write or to read, the general call, the question for an ID. */
static uint64_t addressed(const struct ghixramel_image *image, uint32_t byte)
{
    if (is_ours(image, byte))
        return byte % 2 ? GHIXRAMEL_SENDING : GHIXRAMEL_CHOSEN;
    if (byte == GENERAL_CALL)
        return GHIXRAMEL_CALL;
    return byte == ASK_FOR_ID ? GHIXRAMEL_ASKING : GHIXRAMEL_DEAF;
}

/* Of a byte that is no data and no command of a register. */
static uint64_t bus_after_byte(const struct ghixramel_image *image, uint32_t byte)
{
    switch (image->bus) {
    case GHIXRAMEL_IDLE:
        return GHIXRAMEL_IDLE;
    case GHIXRAMEL_OPENED:
        return addressed(image, byte);
    case GHIXRAMEL_CALL:
        return byte == SOFTWARE_RESET ? GHIXRAMEL_ARMED : GHIXRAMEL_DEAF;
    case GHIXRAMEL_ASKING:
        return is_ours(image, byte) ? GHIXRAMEL_NAMED : GHIXRAMEL_DEAF;
    case GHIXRAMEL_REOPENED:
        return byte == TELL_ID ? GHIXRAMEL_TELLING : addressed(image, byte);
    default:
        return GHIXRAMEL_DEAF;
    }
}

static void take_byte(const struct ghixramel_image *image, uint32_t byte)
{
    struct ghixramel_image after = *image;
    after.bus = bus_after_byte(image, byte);
    if (after.bus == GHIXRAMEL_TELLING)
        after.place = 0;
    int heard = after.bus != GHIXRAMEL_IDLE && after.bus != GHIXRAMEL_DEAF;
    about("bus state and byte", image->bus << 8 | byte);
    want_after(image, GHIXRAMEL_BYTE, byte, heard ? ACK : NAK, &after);
}

/* Commands from F8h on are reserved to both parts; data is data. */
static void take_bytes(const struct ghixramel_image *image)
{
    if (image->bus == GHIXRAMEL_FILLING) {
        about("data in bus state", image->bus);
        want_same_id(image, GHIXRAMEL_BYTE, ASK_FOR_ID);
        want_same_id(image, GHIXRAMEL_BYTE, TELL_ID);
        return;
    }
    for (uint32_t byte = image->bus == GHIXRAMEL_CHOSEN ? ASK_FOR_ID : 0; byte <= UINT8_MAX; byte++)
        take_byte(image, byte);
}

static void give_byte(const struct ghixramel_image *image, uint32_t acknowledged)
{
    const uint32_t bytes[] = {(uint32_t)image->number >> 16, (uint32_t)image->number >> 8 & 0xFF, (uint32_t)image->number & 0xFF};
    static const uint64_t next_places[] = {1, 2, 0};
    struct ghixramel_image after = *image;
    uint32_t shown = STRAY_BYTE;
    if (image->bus == GHIXRAMEL_TELLING) {
        shown = bytes[image->place];
        if (acknowledged)
            after.place = next_places[image->place];
        else
            after.bus = GHIXRAMEL_DEAF;
    }
    want_after(image, GHIXRAMEL_FETCH, acknowledged, READ | shown, &after);
}

static void give_bytes(struct ghixramel_image image)
{
    for (image.place = 0; image.place < GHIXRAMEL_NUMBER_BYTES; image.place++) {
        about("fetch in bus state and place", image.bus << 8 | image.place);
        if (image.bus == GHIXRAMEL_SENDING) {
            want_same_id(&image, GHIXRAMEL_FETCH, 1);
            continue;
        }
        give_byte(&image, 0);
        give_byte(&image, 1);
    }
}

static struct ghixramel_image after_reset(const struct ghixramel_image *image)
{
    struct ghixramel_image after = power_on_image((uint32_t)image->choice, image->pins[0]);
    after.number = image->number;
    return after;
}

static void take_conditions(const struct ghixramel_image *image)
{
    int goes_on = image->bus == GHIXRAMEL_NAMED || image->bus == GHIXRAMEL_REOPENED;
    struct ghixramel_image opened = *image, stopped = *image, reset = after_reset(image);
    opened.bus = goes_on ? GHIXRAMEL_REOPENED : GHIXRAMEL_OPENED;
    stopped.bus = GHIXRAMEL_IDLE;
    about("START in bus state", image->bus);
    want_after(image, GHIXRAMEL_START, 0, NOTHING, &opened);
    about("STOP in bus state", image->bus);
    want_after(image, GHIXRAMEL_STOP, 0, NOTHING, image->bus == GHIXRAMEL_ARMED ? &reset : &stopped);
    about("reset in bus state", image->bus);
    want_after(image, GHIXRAMEL_RESET, 0, NOTHING, &reset);
    about("levels in bus state", image->bus);
    want_same_id(image, GHIXRAMEL_LEVELS, all_pins() & ~image->pins[0]);
}

static void every_state(void)
{
    uint64_t random = SEED;
    for (uint32_t choice = 0; choice < 4; choice++)
        for (uint64_t bus = GHIXRAMEL_IDLE; bus <= GHIXRAMEL_TELLING; bus++) {
            struct ghixramel_image image = random_image(&random);
            image.choice = choice;
            image.bus = bus;
            take_bytes(&image);
            give_bytes(image);
            take_conditions(&image);
        }
}

/* An event, and the answer that it is to get. */
struct said {
    uint32_t kind;
    uint64_t argument;
    uint32_t answer;
};

#define OPEN {GHIXRAMEL_START, 0, NOTHING}
#define CLOSE {GHIXRAMEL_STOP, 0, NOTHING}
#define TAKEN(byte) {GHIXRAMEL_BYTE, byte, ACK}
#define NOT_TAKEN(byte) {GHIXRAMEL_BYTE, byte, NAK}
#define GIVEN(byte) {GHIXRAMEL_FETCH, 1, READ | (byte)}
#define LAST_GIVEN(byte) {GHIXRAMEL_FETCH, 0, READ | (byte)}
#define NOT_GIVEN GIVEN(STRAY_BYTE)
#define MOVED {GHIXRAMEL_LEVELS, 1, NOTHING}, {GHIXRAMEL_LEVELS, 0, NOTHING}
#define RESET {GHIXRAMEL_RESET, 0, NOTHING}
#define NAME(byte) OPEN, TAKEN(ASK_FOR_ID), TAKEN(byte)

static void in_two_bursts(struct ghixramel device, const struct said *said, uint32_t count, uint32_t first, const struct ghixramel *wanted)
{
    uint8_t events[MOST_SAID * EVENT], answers[2 * MOST_SAID] = {0};
    uint32_t left = count - first;
    uint64_t done[1] = {0};
    for (uint32_t i = 0; i < count; i++)
        put_event(events + i * EVENT, said[i].kind, (uint32_t)said[i].argument, 0);
    want("refusal of a burst", GHIXRAMEL_DONE, guarded_burst(&device, events, first * EVENT, first, answers, 2 * first, done));
    want("refusal of a second burst", GHIXRAMEL_DONE,
         guarded_burst(&device, events + first * EVENT, left * EVENT, left, answers + 2 * first, 2 * left, done));
    for (uint32_t i = 0; i < count; i++)
        want("answer in a burst", said[i].answer, one_number(answers + 2 * i));
    want("state differs after two bursts", 0, memcmp(wanted, &device, sizeof device) != 0);
}

/* Step by step, then in two bursts, wherever the second begins. */
static void talk(const char *topic, uint32_t choice, const struct said *said, uint32_t count, uint64_t bus, uint64_t place)
{
    struct ghixramel made = device_with(choice, 0), device = made;
    about(topic, choice);
    for (uint32_t i = 0; i < count; i++)
        want("answer", said[i].answer, answer_to(&device, said[i].kind, said[i].argument));
    struct ghixramel_image image = image_of(&device);
    want("bus state", bus, image.bus);
    want("device's number", USUAL_NUMBER, image.number);
    want("place", place, image.place);
    for (uint32_t first = 0; first <= count; first++)
        in_two_bursts(made, said, count, first, &device);
}

#define COUNT(table) (sizeof(table) / sizeof *(table))

#define TALK(topic, choice, said, bus, place)                                                                                        \
    do {                                                                                                                             \
        _Static_assert(COUNT(said) <= MOST_SAID, "a burst has room for it");                                                         \
        talk(topic, choice, said, COUNT(said), bus, place);                                                                          \
    } while (0)

/* The usual number is 123456h. */
static void readings(uint32_t choice)
{
    const uint32_t ours = address_byte(choice);
    const struct said thrice[] = {
        NAME(ours), OPEN, TAKEN(TELL_ID), GIVEN(0x12), GIVEN(0x34), LAST_GIVEN(0x56), NOT_GIVEN, NOT_TAKEN(TELL_ID),
    };
    TALK("three bytes, the last not acknowledged", choice, thrice, GHIXRAMEL_DEAF, 2);
    const struct said around[] = {
        NAME(ours), OPEN, TAKEN(TELL_ID), GIVEN(0x12), GIVEN(0x34), GIVEN(0x56), GIVEN(0x12), GIVEN(0x34), GIVEN(0x56), GIVEN(0x12),
    };
    TALK("round and round", choice, around, GHIXRAMEL_TELLING, 1);
    const struct said other_bit[] = {NAME(ours + 1), OPEN, TAKEN(TELL_ID), GIVEN(0x12), GIVEN(0x34), CLOSE, NOT_GIVEN};
    TALK("our byte with lowest bit 1, ended by STOP", choice, other_bit, GHIXRAMEL_IDLE, 2);
    const struct said twice[] = {NAME(ours), OPEN, OPEN, OPEN, TAKEN(TELL_ID), GIVEN(0x12)};
    TALK("START repeated more than once", choice, twice, GHIXRAMEL_TELLING, 1);
    const struct said again[] = {
        NAME(ours), OPEN, TAKEN(TELL_ID), GIVEN(0x12), NAME(ours), OPEN, TAKEN(ASK_FOR_ID), TAKEN(ours + 1),
        OPEN, TAKEN(TELL_ID), GIVEN(0x12),
    };
    TALK("asked again, while it is told and after the repeated START", choice, again, GHIXRAMEL_TELLING, 1);
    const struct said moving[] = {
        OPEN, MOVED, TAKEN(ASK_FOR_ID), MOVED, TAKEN(ours), MOVED, OPEN, MOVED, TAKEN(TELL_ID), MOVED, GIVEN(0x12), MOVED, GIVEN(0x34),
    };
    TALK("levels at every moment", choice, moving, GHIXRAMEL_TELLING, 2);
}

static void spoiled_readings(uint32_t choice)
{
    const uint32_t ours = address_byte(choice), others = address_byte((choice + 1) % 4);
    const struct said unasked[] = {OPEN, NOT_TAKEN(TELL_ID), NOT_GIVEN, OPEN, NOT_TAKEN(TELL_ID), NOT_GIVEN};
    TALK("not asked for", choice, unasked, GHIXRAMEL_DEAF, 0);
    const struct said stopped[] = {NAME(ours), CLOSE, OPEN, NOT_TAKEN(TELL_ID), NOT_GIVEN};
    TALK("STOP before the repeated START", choice, stopped, GHIXRAMEL_DEAF, 0);
    const struct said stopped_late[] = {NAME(ours), OPEN, CLOSE, OPEN, NOT_TAKEN(TELL_ID), NOT_GIVEN};
    TALK("STOP after the repeated START", choice, stopped_late, GHIXRAMEL_DEAF, 0);
    const struct said unnamed[] = {OPEN, TAKEN(ASK_FOR_ID), OPEN, NOT_TAKEN(TELL_ID), NOT_GIVEN};
    TALK("START before a name", choice, unnamed, GHIXRAMEL_DEAF, 0);
    const struct said for_another[] = {OPEN, TAKEN(ASK_FOR_ID), NOT_TAKEN(others), OPEN, NOT_TAKEN(TELL_ID), NOT_GIVEN};
    TALK("another device's address", choice, for_another, GHIXRAMEL_DEAF, 0);
    const struct said straight_on[] = {NAME(ours), NOT_TAKEN(TELL_ID), NOT_GIVEN, OPEN, NOT_TAKEN(TELL_ID)};
    TALK("no repeated START", choice, straight_on, GHIXRAMEL_DEAF, 0);
    const struct said named_twice[] = {NAME(ours), NOT_TAKEN(ours), OPEN, NOT_TAKEN(TELL_ID), NOT_GIVEN};
    TALK("a byte after the name", choice, named_twice, GHIXRAMEL_DEAF, 0);
    const struct said to_another[] = {NAME(ours), OPEN, NOT_TAKEN(others), NOT_GIVEN, OPEN, NOT_TAKEN(TELL_ID)};
    TALK("another device's address after the repeated START", choice, to_another, GHIXRAMEL_DEAF, 0);
    const struct said started[] = {NAME(ours), OPEN, TAKEN(TELL_ID), GIVEN(0x12), OPEN, NOT_TAKEN(TELL_ID), NOT_GIVEN};
    TALK("START while it is told", choice, started, GHIXRAMEL_DEAF, 1);
    const struct said spoken_over[] = {NAME(ours), OPEN, TAKEN(TELL_ID), GIVEN(0x12), NOT_TAKEN(ours), NOT_GIVEN};
    TALK("a byte while it is told", choice, spoken_over, GHIXRAMEL_DEAF, 1);
}

/* The question does not come between a host and the registers. */
static void readings_beside_registers(uint32_t choice)
{
    const uint32_t ours = address_byte(choice), output = part->output;
    const struct said data[] = {
        NAME(ours), OPEN, TAKEN(ours), TAKEN(output), TAKEN(TELL_ID), TAKEN(ASK_FOR_ID), OPEN, NOT_TAKEN(TELL_ID), NOT_GIVEN,
        OPEN, TAKEN(ours), TAKEN(output), OPEN, TAKEN(ours + 1), GIVEN(TELL_ID), LAST_GIVEN(ASK_FOR_ID),
    };
    TALK("both bytes as data", choice, data, GHIXRAMEL_DEAF, 0);
    const struct said between[] = {
        OPEN, TAKEN(ours), TAKEN(output), TAKEN(0xA5), NAME(ours), OPEN, TAKEN(TELL_ID), GIVEN(0x12), CLOSE,
        OPEN, TAKEN(ours), TAKEN(output), NAME(ours), OPEN, TAKEN(ours + 1), LAST_GIVEN(0xA5),
    };
    TALK("the pointer kept over a reading", choice, between, GHIXRAMEL_DEAF, 1);
    const struct said commands[] = {OPEN, TAKEN(ours), NOT_TAKEN(ASK_FOR_ID), OPEN, TAKEN(ours), NOT_TAKEN(TELL_ID), OPEN, TAKEN(ours)};
    TALK("both bytes as commands", choice, commands, GHIXRAMEL_CHOSEN, 0);
    const struct said idle[] = {NOT_TAKEN(ASK_FOR_ID), NOT_TAKEN(TELL_ID), NOT_GIVEN};
    TALK("both bytes before START", choice, idle, GHIXRAMEL_IDLE, 0);
}

/* The number outlives both resets. */
static void readings_and_resets(uint32_t choice)
{
    const uint32_t ours = address_byte(choice);
    const struct said hard[] = {NAME(ours), OPEN, TAKEN(TELL_ID), GIVEN(0x12), RESET, NOT_GIVEN};
    TALK("reset while it is told", choice, hard, GHIXRAMEL_IDLE, 0);
    const struct said soft[] = {
        NAME(ours), OPEN, TAKEN(TELL_ID), GIVEN(0x12), OPEN, TAKEN(GENERAL_CALL), TAKEN(SOFTWARE_RESET), CLOSE, NOT_GIVEN,
    };
    TALK("general call after a reading", choice, soft, GHIXRAMEL_IDLE, 0);
    const struct said reopened[] = {NAME(ours), OPEN, TAKEN(GENERAL_CALL), TAKEN(SOFTWARE_RESET), CLOSE};
    TALK("general call after the repeated START", choice, reopened, GHIXRAMEL_IDLE, 0);
    const struct said after[] = {RESET, NAME(ours), RESET, OPEN, NOT_TAKEN(TELL_ID), NAME(ours), OPEN, TAKEN(TELL_ID), GIVEN(0x12)};
    TALK("reset after the name, then a reading", choice, after, GHIXRAMEL_TELLING, 1);
}

void check_identity(void)
{
    every_state();
    for (uint32_t choice = 0; choice < 4; choice++) {
        readings(choice);
        spoiled_readings(choice);
        readings_beside_registers(choice);
        readings_and_resets(choice);
    }
}
