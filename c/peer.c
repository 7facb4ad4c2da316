#include "peer.h"

#include <libc.h>

enum { PINS = 24, ALL_PINS = (1 << PINS) - 1 };
enum { IDLE, OPENED, CHOSEN, FILLING, SENDING, CALL, ARMED, DEAF, ASKING, NAMED, REOPENED, TELLING };
enum { BAD_KIND = 1, BAD_ARGUMENT = 2, BAD_IMAGE = 3 };
enum { GENERAL_CALL = 0x00, SOFTWARE_RESET = 0x06, FIRST_ADDRESS = 0x20, ASK_FOR_ID = 0xF8, TELL_ID = 0xF9, STRAY_BYTE = 0xFF };
enum { IN_GROUP, OVER_MAP, MODES };
/* A command byte: the register's number, and above it the mode. */
enum { NUMBER_BITS = 7, NUMBERS = 1 << NUMBER_BITS };
/* The device's own number is its ID. */
enum { ID_BYTES = 3, LARGEST_ID = (1 << 8 * ID_BYTES) - 1 };

/* First register of each group that the pins' rules read. */
enum {
    OUTPUT = 0x04,
    POLARITY = 0x08,
    CONFIGURATION = 0x0C,
    LATCH = 0x48,
    MASK = 0x54,
    PORT_KIND = 0x5C,
    EDGE = 0x60,
    PIN_KIND = 0x70
};

/* What a write or a fetch does beyond the register file. */
enum rule { RESERVED, PLAIN, INPUT_RULE, STATUS_RULE, INPUT_STATUS_RULE, CONFIGURATION_RULE, LATCH_RULE, MASK_RULE, EDGE_RULE, CLEAR_RULE };

/* Kept out of line, so that the frequent events do not save the machine registers that these need. */
#define OUT_OF_LINE __attribute__((noinline)) static

#define TWO(first, value) [first] = (value), [(first) + 1] = (value)
#define THREE(first, value) TWO(first, value), [(first) + 2] = (value)
#define SIX(first, value) THREE(first, value), THREE((first) + 3, value)

/* A pointer above 7Fh counts as reserved, so the table has all bytes. */
static const uint8_t rules[256] = {
    THREE(0x00, INPUT_RULE),
    THREE(0x04, PLAIN), /* output */
    THREE(0x08, PLAIN), /* polarity */
    THREE(0x0C, CONFIGURATION_RULE),
    SIX(0x40, PLAIN), /* drive strength */
    THREE(0x48, LATCH_RULE),
    THREE(0x4C, PLAIN), /* pull enable */
    THREE(0x50, PLAIN), /* pull select */
    THREE(0x54, MASK_RULE),
    THREE(0x58, STATUS_RULE),
    [0x5C] = PLAIN, /* output port kind */
    SIX(0x60, EDGE_RULE),
    THREE(0x68, CLEAR_RULE),
    THREE(0x6C, INPUT_STATUS_RULE),
    THREE(0x70, PLAIN), /* pin output kind */
    TWO(0x74, PLAIN),   /* debounce enable */
    [0x76] = PLAIN,     /* debounce count */
};

/* The bits of each entry that can be stored; the others are always 0. */
static const uint8_t storable[128] = {
    THREE(0x04, 0xFF), THREE(0x08, 0xFF), THREE(0x0C, 0xFF), SIX(0x40, 0xFF), THREE(0x48, 0xFF), THREE(0x4C, 0xFF), THREE(0x50, 0xFF),
    THREE(0x54, 0xFF), [0x5C] = 0x07,     SIX(0x60, 0xFF),   THREE(0x70, 0xFF), TWO(0x74, 0xFF), [0x76] = 0xFF,
};

static const uint8_t defaults[128] = {
    THREE(0x04, 0xFF), THREE(0x0C, 0xFF), SIX(0x40, 0xFF), THREE(0x50, 0xFF), THREE(0x54, 0xFF),
};

#define THREE_THEN(first, then) [first] = (first) + 1, [(first) + 1] = (first) + 2, [(first) + 2] = (then)
#define SIX_THEN(first, then) THREE_THEN(first, (first) + 3), THREE_THEN((first) + 3, then)
#define RING_OF_THREE(first) THREE_THEN(first, first)
#define RING_OF_SIX(first) SIX_THEN(first, first)

/* The number after each, by the mode. */
static const uint8_t successor[MODES][NUMBERS] = {
    [IN_GROUP] = {
        RING_OF_THREE(0x00), RING_OF_THREE(0x04), RING_OF_THREE(0x08), RING_OF_THREE(0x0C), RING_OF_SIX(0x40),   RING_OF_THREE(0x48),
        RING_OF_THREE(0x4C), RING_OF_THREE(0x50), RING_OF_THREE(0x54), RING_OF_THREE(0x58), [0x5C] = 0x5C,       RING_OF_SIX(0x60),
        RING_OF_THREE(0x68), RING_OF_THREE(0x6C), RING_OF_THREE(0x70), [0x74] = 0x75,       [0x75] = 0x74,       [0x76] = 0x76,
    },
    [OVER_MAP] = {
        THREE_THEN(0x00, 0x04), THREE_THEN(0x04, 0x08), THREE_THEN(0x08, 0x0C), THREE_THEN(0x0C, 0x40), SIX_THEN(0x40, 0x48),
        THREE_THEN(0x48, 0x4C), THREE_THEN(0x4C, 0x50), THREE_THEN(0x50, 0x54), THREE_THEN(0x54, 0x58), THREE_THEN(0x58, 0x5C),
        [0x5C] = 0x60,          SIX_THEN(0x60, 0x68),   THREE_THEN(0x68, 0x6C), THREE_THEN(0x6C, 0x70), THREE_THEN(0x70, 0x74),
        [0x74] = 0x75,          [0x75] = 0x76,          [0x76] = 0x00,
    },
};

/* The pins of the ports whose bits are set in the output port kind. */
static const uint32_t pins_of_ports[8] = {0x000000, 0x0000FF, 0x00FF00, 0x00FFFF, 0xFF0000, 0xFF00FF, 0xFFFF00, 0xFFFFFF};

/* Every group of three is followed by a reserved entry, which is 0: one load of four bytes. */
static uint32_t pins_at(const struct peer *d, uint32_t first)
{
    const uint8_t *at = d->registers + first;
    return (uint32_t)at[0] | (uint32_t)at[1] << 8 | (uint32_t)at[2] << 16 | (uint32_t)at[3] << 24;
}

/* The six edge registers and the two reserved entries after them, which are 0. */
static uint64_t edge_fields(const struct peer *d)
{
    return pins_at(d, EDGE) | (uint64_t)pins_at(d, EDGE + 4) << 32;
}

/* Bit i of the result is bit 2i of the fields. */
static uint32_t every_second(uint64_t fields)
{
    fields &= 0x5555555555555555;
    fields = (fields | fields >> 1) & 0x3333333333333333;
    fields = (fields | fields >> 2) & 0x0F0F0F0F0F0F0F0F;
    fields = (fields | fields >> 4) & 0x00FF00FF00FF00FF;
    fields = (fields | fields >> 8) & 0x0000FFFF0000FFFF;
    return (uint32_t)(fields | fields >> 16);
}

static uint32_t open_drain(const struct peer *d)
{
    return pins_of_ports[d->registers[PORT_KIND] & 7] ^ pins_at(d, PIN_KIND);
}

static uint32_t input_bits(const struct peer *d)
{
    uint32_t level = (uint32_t)d->level;
    uint32_t inputs = pins_at(d, CONFIGURATION);
    uint32_t shows_held = pins_at(d, LATCH) & (uint32_t)d->held;
    uint32_t seen = (level & ~shows_held) | (~(uint32_t)d->reference & shows_held);
    return (inputs & (seen ^ pins_at(d, POLARITY))) | (~inputs & level & ~open_drain(d));
}

static uint32_t status_bits(const struct peer *d)
{
    uint32_t watched = pins_at(d, CONFIGURATION) & ~pins_at(d, MASK);
    uint32_t latch = pins_at(d, LATCH);
    uint64_t fields = edge_fields(d);
    uint32_t by_edge = every_second(fields | fields >> 1);
    uint32_t by_level = (latch & (uint32_t)d->held) | (~latch & (uint32_t)(d->level ^ d->reference));
    return watched & ((by_edge & (uint32_t)d->edge) | (~by_edge & by_level));
}

/* Status and line are kept by every operation that can change them, so that nobody who asks works them out. */
static void keep(struct peer *d, uint64_t status)
{
    d->status = status;
    d->line = status == 0;
}

/* A settled pin has no status bit. */
static void settle(struct peer *d, uint64_t pins)
{
    d->edge &= ~pins;
    d->held &= ~pins;
    d->reference = (d->reference & ~pins) | (d->level & pins);
    keep(d, d->status & ~pins);
}

OUT_OF_LINE void reset(struct peer *d)
{
    memcpy(d->registers, defaults, sizeof d->registers);
    d->pointer = 0;
    d->mode = IN_GROUP;
    d->bus = IDLE;
    d->place = 0;
    settle(d, ALL_PINS);
}

/* A pin that turns to input keeps its reference, and holds what differs from it if it is latched. */
static void write_configuration(struct peer *d, uint64_t outputs, uint64_t new_inputs)
{
    uint64_t pending = pins_at(d, LATCH) & (d->level ^ d->reference);
    d->held = (d->held & ~outputs & ~new_inputs) | (pending & new_inputs);
    d->edge &= ~outputs & ~new_inputs;
}

static void write_latch(struct peer *d, uint64_t unlatched, uint64_t new_latched)
{
    uint64_t pending = pins_at(d, CONFIGURATION) & (d->level ^ d->reference);
    d->held = (d->held & ~unlatched & ~new_latched) | (pending & new_latched);
}

/* Four pins a register, two bits a pin; 00 forgets the edge. */
static void write_edge(struct peer *d, uint32_t number, uint32_t value)
{
    uint64_t none = every_second(~(value | value >> 1) & 0x55);
    d->edge &= ~(none << 4 * (number - EDGE));
}

/* The groups with one bit a pin begin at multiples of four, so a number's last two bits are its port. */
OUT_OF_LINE void write_register(struct peer *d, uint32_t number, uint32_t value)
{
    uint32_t port = 8 * (number & 3);
    uint64_t set = (uint64_t)value << port;
    uint64_t cleared = (uint64_t)(value ^ 0xFF) << port;
    uint64_t raised = (uint64_t)(value & ~(uint32_t)d->registers[number]) << port;
    switch (rules[number]) {
    case CONFIGURATION_RULE:
        write_configuration(d, cleared, raised);
        break;
    case LATCH_RULE:
        write_latch(d, cleared, raised);
        break;
    case MASK_RULE:
        d->edge &= ~set;
        break;
    case EDGE_RULE:
        write_edge(d, number, value);
        break;
    case CLEAR_RULE:
        settle(d, set);
        return;
    default:
        d->registers[number] = (uint8_t)(value & storable[number]);
        return;
    }
    d->registers[number] = (uint8_t)value;
    keep(d, status_bits(d));
}

/* The byte is formed before an input port register settles its pins. */
OUT_OF_LINE uint8_t fetch_register(struct peer *d, uint32_t number)
{
    uint32_t port = 8 * (number & 3);
    uint8_t shown;
    switch (rules[number]) {
    case INPUT_RULE:
        shown = (uint8_t)(input_bits(d) >> port);
        settle(d, (uint64_t)0xFF << port);
        return shown;
    case INPUT_STATUS_RULE:
        return (uint8_t)(input_bits(d) >> port);
    case STATUS_RULE:
        return (uint8_t)(d->status >> port);
    default:
        return d->registers[number];
    }
}

static uint8_t acknowledge(struct peer *d, uint8_t bus)
{
    d->bus = bus;
    return PEER_ACK;
}

static uint8_t turn_deaf(struct peer *d)
{
    d->bus = DEAF;
    return PEER_NAK;
}

static uint32_t address_to_write(const struct peer *d)
{
    return 2 * (FIRST_ADDRESS + (uint32_t)d->choice);
}

static uint8_t take_address(struct peer *d, uint32_t value)
{
    if (value == address_to_write(d))
        return acknowledge(d, CHOSEN);
    if (value == address_to_write(d) + 1)
        return acknowledge(d, SENDING);
    if (value == GENERAL_CALL)
        return acknowledge(d, CALL);
    if (value == ASK_FOR_ID)
        return acknowledge(d, ASKING);
    return turn_deaf(d);
}

/* Whose ID is asked for: the address byte, its lowest bit either way. */
OUT_OF_LINE uint8_t take_name(struct peer *d, uint32_t value)
{
    return (value & ~1u) == address_to_write(d) ? acknowledge(d, NAMED) : turn_deaf(d);
}

OUT_OF_LINE uint8_t take_address_again(struct peer *d, uint32_t value)
{
    if (value != TELL_ID)
        return take_address(d, value);
    d->place = 0;
    return acknowledge(d, TELLING);
}

/* One that is not acknowledged leaves pointer and mode. */
static uint8_t take_command(struct peer *d, uint32_t value)
{
    uint32_t number = value % NUMBERS;
    if (rules[number] == RESERVED)
        return turn_deaf(d);
    d->pointer = (uint8_t)number;
    d->mode = (uint8_t)(value >> NUMBER_BITS);
    return acknowledge(d, FILLING);
}

static void step_pointer(struct peer *d)
{
    d->pointer = successor[d->mode][d->pointer];
}

static uint8_t take_data(struct peer *d, uint32_t value)
{
    write_register(d, d->pointer, value);
    step_pointer(d);
    return PEER_ACK;
}

static uint8_t take_byte(struct peer *d, uint32_t value)
{
    switch (d->bus) {
    case OPENED:
        return take_address(d, value);
    case CHOSEN:
        return take_command(d, value);
    case FILLING:
        return take_data(d, value);
    case CALL:
        return value == SOFTWARE_RESET ? acknowledge(d, ARMED) : turn_deaf(d);
    case ASKING:
        return take_name(d, value);
    case REOPENED:
        return take_address_again(d, value);
    case IDLE:
        return PEER_NAK;
    default:
        return turn_deaf(d);
    }
}

/* A fetch of no register: where the ID is told its highest byte first, and after the lowest the highest again. */
OUT_OF_LINE uint8_t tell_byte(struct peer *d, int acknowledged)
{
    if (d->bus != TELLING)
        return STRAY_BYTE;
    uint8_t told = (uint8_t)(d->number >> 8 * (ID_BYTES - 1 - d->place));
    if (acknowledged)
        d->place = (uint8_t)((d->place + 1) % ID_BYTES);
    else
        d->bus = DEAF;
    return told;
}

static uint8_t give_byte(struct peer *d, int acknowledged)
{
    if (d->bus != SENDING)
        return tell_byte(d, acknowledged);
    uint8_t shown = fetch_register(d, d->pointer);
    if (acknowledged)
        step_pointer(d);
    else
        d->bus = DEAF;
    return shown;
}

/* A branch and no choice of two numbers, so that every other START need not wait for the bus state before it. */
OUT_OF_LINE void reopen(struct peer *d)
{
    d->bus = REOPENED;
}

static void start(struct peer *d)
{
    if (d->bus == NAMED || d->bus == REOPENED)
        reopen(d);
    else
        d->bus = OPENED;
}

static void stop(struct peer *d)
{
    if (d->bus == ARMED)
        reset(d);
    d->bus = IDLE;
}

OUT_OF_LINE void take_levels(struct peer *d, uint64_t levels)
{
    uint64_t inputs = pins_at(d, CONFIGURATION);
    uint64_t fields = edge_fields(d);
    uint64_t rose = levels & ~d->level & every_second(fields);
    uint64_t fell = d->level & ~levels & every_second(fields >> 1);
    d->held |= inputs & pins_at(d, LATCH) & (levels ^ d->reference);
    d->edge |= inputs & ~(uint64_t)pins_at(d, MASK) & (rose | fell);
    d->level = levels;
    keep(d, status_bits(d));
}

#ifndef PEER_TRUSTS_IMAGE

/* Eight entries at a time; the output port kind's upper bits count as entries that store nothing. */
static int file_broken(const uint8_t registers[128])
{
    uint64_t wrong = 0;
    for (int i = 0; i < 128; i += 8) {
        uint64_t entries, allowed;
        memcpy(&entries, registers + i, 8);
        memcpy(&allowed, storable + i, 8);
        wrong |= entries & ~allowed;
    }
    return wrong != 0;
}

/* The number is judged with the pin sets. */
_Static_assert(LARGEST_ID == ALL_PINS, "a number has as many bits as a pin set");

static int image_broken(const struct peer *d)
{
    return ((d->level | d->reference | d->held | d->edge | d->number) > ALL_PINS) | (rules[d->pointer] == RESERVED) | (d->bus > TELLING) |
           (d->choice > 3) | (d->mode > OVER_MAP) | (d->place >= ID_BYTES) | file_broken(d->registers) |
           (d->status != status_bits(d)) | (d->line != (d->status == 0));
}

#endif

static uint32_t answered(uint8_t answer[2], uint8_t kind, uint8_t shown)
{
    answer[0] = kind;
    answer[1] = shown;
    return 0;
}

uint32_t peer_step(struct peer *d, uint32_t kind, uint64_t argument, uint8_t answer[2])
{
#ifndef PEER_TRUSTS_IMAGE
    if (image_broken(d))
        return BAD_IMAGE;
#endif
    switch (kind) {
    case PEER_START:
        start(d);
        return answered(answer, PEER_NOTHING, 0);
    case PEER_STOP:
        stop(d);
        return answered(answer, PEER_NOTHING, 0);
    case PEER_BYTE:
        if (argument > 0xFF)
            return BAD_ARGUMENT;
        return answered(answer, take_byte(d, (uint32_t)argument), 0);
    case PEER_FETCH:
        if (argument > 1)
            return BAD_ARGUMENT;
        return answered(answer, PEER_READ, give_byte(d, argument == 1));
    case PEER_LEVELS:
        if (argument > ALL_PINS)
            return BAD_ARGUMENT;
        take_levels(d, argument);
        return answered(answer, PEER_NOTHING, 0);
    case PEER_RESET:
        reset(d);
        return answered(answer, PEER_NOTHING, 0);
    default:
        return BAD_KIND;
    }
}

uint32_t peer_power_on(struct peer *d, uint32_t choice, uint64_t levels, uint64_t number)
{
    if (choice > 3 || levels > ALL_PINS || number > LARGEST_ID)
        return BAD_ARGUMENT;
    d->level = levels;
    d->reference = d->held = d->edge = d->status = 0;
    d->choice = (uint8_t)choice;
    d->number = number;
    reset(d);
    return 0;
}

void peer_drives(const struct peer *d, uint64_t drives[2])
{
    uint32_t outputs = ~pins_at(d, CONFIGURATION) & ALL_PINS;
    uint32_t ones = pins_at(d, OUTPUT);
    drives[0] = outputs & ~ones;
    drives[1] = outputs & ones & ~open_drain(d);
}

int peer_int(const struct peer *d)
{
    return d->line == 0;
}
