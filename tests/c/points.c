/* The worked example and the bench points of the device. */
#include "checks.h"
#include "host_checks.h"
#include "images.h"
#include "master.h"

enum { INPUT = 0x00 };
enum { PIN_0 = 0x01, ALL_BUT_PIN_0 = 0xFE, WHOLE_PORT = 0xFF, RISING = 0x01, EITHER = 0x03 };
/* A command byte's bit 7. */
enum { OVER_MAP = 0x80 };

static void worked_example(void)
{
    const struct {
        uint32_t kind;
        uint64_t argument;
        uint32_t answer, asserted; /* pin 0 is the one that asserts */
    } events[] = {
        {GHIXRAMEL_START, 0, NOTHING, 0}, {GHIXRAMEL_BYTE, 0x44, ACK, 0},           {GHIXRAMEL_BYTE, part->mask, ACK, 0},
        {GHIXRAMEL_BYTE, 0xFE, ACK, 0},   {GHIXRAMEL_LEVELS, 0x000001, NOTHING, 1},
    };
    about("worked example, at power-on", 0);
    struct ghixramel device = device_with(2, 0x000000);
    want("INT", 0, int_of(&device));
    want_drives(&device, 0, 0);
    for (uint32_t i = 0; i < sizeof events / sizeof *events; i++) {
        about("worked example, event", i + 1);
        want("answer", events[i].answer, answer_to(&device, events[i].kind, events[i].argument));
        want("INT", events[i].asserted, int_of(&device));
        want("status", events[i].asserted ? PIN_0 : 0, image_of(&device).status);
        want("line", !events[i].asserted, image_of(&device).line);
        want_drives(&device, 0, 0);
    }
}

static void drive_points(void)
{
    struct ghixramel device = device_with(0, 0);
    about("configuration 0, output 1, port kind 0, pin kind 1", 0);
    write_register(&device, part->configuration, ALL_BUT_PIN_0);
    want_drives(&device, 0, PIN_0);
    write_register(&device, part->pin_kind, PIN_0);
    want_drives(&device, 0, 0);
    about("port kind 1 too", 0);
    write_register(&device, part->port_kind, 1);
    want_drives(&device, 0, PIN_0);
    about("output 0", 0);
    write_register(&device, part->output, ALL_BUT_PIN_0);
    want_drives(&device, PIN_0, 0);
}

static void want_pointer(const char *what, const struct ghixramel *device, uint32_t number, uint32_t bit_7)
{
    struct ghixramel_image image = image_of(device);
    want(what, number, image.pointer);
    want("mode", bit_7 / OVER_MAP, image.mode);
}

static void pointer_after(uint32_t number, uint32_t bit_7, uint32_t wanted)
{
    about("pointer after command", bit_7 | number);
    struct ghixramel device = device_with(0, 0);
    begin_write(&device, bit_7 | number);
    want_pointer("pointer after the command", &device, number, bit_7);
    want("answer to data", ACK, send_byte(&device, 0));
    want_pointer("pointer after a write", &device, wanted, bit_7);
    begin_read(&device, bit_7 | number);
    answer_to(&device, GHIXRAMEL_FETCH, 1);
    want_pointer("pointer after a fetch", &device, wanted, bit_7);
    begin_read(&device, bit_7 | number);
    answer_to(&device, GHIXRAMEL_FETCH, 0);
    want_pointer("pointer after the last fetch", &device, number, bit_7);
}

/* After the last group comes the first. */
static void pointer_points(void)
{
    for (uint32_t i = 0; i < part->group_count; i++) {
        const struct group *group = &part->groups[i], *next = &part->groups[(i + 1) % part->group_count];
        for (uint32_t number = group->first; number <= group->last; number++) {
            pointer_after(number, 0, number == group->last ? group->first : number + 1);
            pointer_after(number, OVER_MAP, number == group->last ? next->first : number + 1);
        }
    }
}

static uint32_t known_numbers(void)
{
    uint32_t count = 0;
    for (uint32_t number = 0; number < REGISTERS; number++)
        count += group_of(number) != NULL;
    return count;
}

/* As many bytes as there are registers lead back; the fetches, of every register once, are beside those of each by itself. */
static void whole_round(void)
{
    about("a whole round", known_numbers());
    struct ghixramel device = device_with(0, 0);
    begin_write(&device, OVER_MAP | part->output);
    for (uint32_t left = known_numbers(); left > 0; left--)
        want("answer to data", ACK, send_byte(&device, 0xA5));
    want_pointer("pointer after a round of writes", &device, part->output, OVER_MAP);
    stop(&device);
    begin_read(&device, OVER_MAP | part->output);
    for (uint32_t left = known_numbers(); left > 0; left--) {
        struct ghixramel single = device;
        uint32_t number = (uint32_t)image_of(&device).pointer;
        want("byte of the round", read_register(&single, number), answer_to(&device, GHIXRAMEL_FETCH, 1) & 0xFF);
        want("what a write left", stored_bits(number) & 0xA5, image_of(&device).registers[number]);
    }
    want_pointer("pointer after a round of reads", &device, part->output, OVER_MAP);
}

/* Each input port that a walk fetches is settled, and no other. */
static void walk_of_reads(void)
{
    about("walk of reads over the input ports", part->ports);
    struct ghixramel device = device_with(0, 0);
    begin_write(&device, part->mask);
    for (uint32_t port = 0; port < part->ports; port++)
        want("answer to data", ACK, send_byte(&device, 0x00));
    set_levels(&device, all_pins());
    begin_read(&device, OVER_MAP | part->groups[part->group_count - 1].last);
    answer_to(&device, GHIXRAMEL_FETCH, 1);
    want("status after the highest", all_pins(), image_of(&device).status);
    for (uint32_t port = 0; port < part->ports; port++) {
        answer_to(&device, GHIXRAMEL_FETCH, 1);
        want("status after an input port", all_pins() & ~(((uint64_t)1 << 8 * (port + 1)) - 1), image_of(&device).status);
    }
    want("INT", 0, int_of(&device));
}

/* It outlives STOP and START; a command that is not acknowledged leaves it, the next that is has its own. */
static void mode_points(void)
{
    about("mode kept and cleared", 0);
    struct ghixramel device = device_with(0, 0);
    begin_write(&device, OVER_MAP | part->port_kind);
    stop(&device);
    want_pointer("pointer after STOP", &device, part->port_kind, OVER_MAP);
    for (uint32_t bit_7 = 0; bit_7 <= OVER_MAP; bit_7 += OVER_MAP) {
        start(&device);
        want("answer to the address", ACK, send_byte(&device, 0x40));
        want("answer to a reserved command", NAK, send_byte(&device, bit_7 | part->reserved));
        want_pointer("pointer after a reserved command", &device, part->port_kind, OVER_MAP);
    }
    start(&device);
    want("answer to the address to read", ACK, send_byte(&device, 0x41));
    answer_to(&device, GHIXRAMEL_FETCH, 1);
    want_pointer("pointer after a fetch", &device, part->edge, OVER_MAP);
    begin_write(&device, part->port_kind);
    want("answer to data", ACK, send_byte(&device, 0));
    want_pointer("pointer after a group of one", &device, part->port_kind, 0);
}

static void rise_and_fall(struct ghixramel *device)
{
    set_levels(device, PIN_0);
    set_levels(device, 0);
}

static void interrupt_points(void)
{
    about("latched pin 0, 1, 0", 0);
    struct ghixramel device = device_with(0, 0);
    write_register(&device, part->mask, ALL_BUT_PIN_0);
    write_register(&device, part->latch, PIN_0);
    rise_and_fall(&device);
    want("INT", 1, int_of(&device));
    want("first fetch", 1, read_register(&device, INPUT));
    want("next fetch", 0, read_register(&device, INPUT));
    want("INT after the fetches", 0, int_of(&device));

    about("unlatched pin 0, 1, 0", 0);
    device = device_with(0, 0);
    write_register(&device, part->mask, ALL_BUT_PIN_0);
    set_levels(&device, PIN_0);
    want("INT at 1", 1, int_of(&device));
    set_levels(&device, 0);
    want("INT at 0 again", 0, int_of(&device));
}

static void edge_points(void)
{
    about("rising field, latch 0, unmasked", 0);
    struct ghixramel device = device_with(0, 0);
    write_register(&device, part->mask, ALL_BUT_PIN_0);
    write_register(&device, part->edge, RISING);
    rise_and_fall(&device);
    want("INT", 1, int_of(&device));

    about("rising field, masked during the edges, unmasked after", 0);
    device = device_with(0, 0);
    write_register(&device, part->edge, RISING);
    rise_and_fall(&device);
    write_register(&device, part->mask, ALL_BUT_PIN_0);
    want("INT", 0, int_of(&device));
}

/* Pin 0 is unmasked and an output, and its level has left its reference. */
static struct ghixramel moved_output(uint32_t latch, uint32_t field)
{
    struct ghixramel device = device_with(0, 0);
    write_register(&device, part->mask, ALL_BUT_PIN_0);
    write_register(&device, part->latch, latch);
    write_register(&device, part->edge, field);
    write_register(&device, part->configuration, ALL_BUT_PIN_0);
    set_levels(&device, PIN_0);
    want("INT while it is an output", 0, int_of(&device));
    return device;
}

static void want_turned(struct ghixramel *device, uint32_t asserted, uint64_t reference, uint64_t held)
{
    write_register(device, part->configuration, WHOLE_PORT);
    struct ghixramel_image image = image_of(device);
    want("INT once it is an input", asserted, int_of(device));
    want("status", asserted ? PIN_0 : 0, image.status);
    want("reference", reference, image.pins[1]);
    want("held", held, image.pins[2]);
    want("edge", 0, image.pins[3]);
}

static void ringing_turns(void)
{
    about("unlatched output turned to input away from its reference", 0);
    struct ghixramel device = moved_output(0, 0);
    want_turned(&device, 1, 0, 0);
    set_levels(&device, 0);
    want("INT when the level is back", 0, int_of(&device));

    about("latched output turned to input away from its reference", 0);
    device = moved_output(PIN_0, 0);
    want_turned(&device, 1, 0, PIN_0);
    set_levels(&device, 0);
    want("INT when the level is back", 1, int_of(&device));
    want("fetch", 1, read_register(&device, INPUT));
    want("INT after the fetch", 0, int_of(&device));

    about("output latched while it is one, turned to input away from its reference", 0);
    device = moved_output(0, 0);
    write_register(&device, part->latch, PIN_0);
    want("held while it is an output", 0, image_of(&device).pins[2]);
    want_turned(&device, 1, 0, PIN_0);
}

static void quiet_turns(uint32_t latch)
{
    about("level back before the turn to input, latch", latch);
    struct ghixramel device = moved_output(latch, 0);
    set_levels(&device, 0);
    want_turned(&device, 0, 0, 0);

    about("output fetched before the turn to input, latch", latch);
    device = moved_output(latch, 0);
    read_register(&device, INPUT);
    want_turned(&device, 0, PIN_0, 0);

    about("output cleared before the turn to input, latch", latch);
    device = moved_output(latch, 0);
    write_register(&device, part->clear, PIN_0);
    want_turned(&device, 0, PIN_0, 0);

    for (uint32_t field = RISING; field <= EITHER; field++) {
        about("output with an edge field turned to input, field", field);
        device = moved_output(latch, field);
        want_turned(&device, 0, 0, latch);
    }

    about("masked, turned to input, cleared, unmasked, latch", latch);
    device = moved_output(latch, 0);
    write_register(&device, part->mask, WHOLE_PORT);
    want_turned(&device, 0, 0, latch);
    write_register(&device, part->clear, PIN_0);
    write_register(&device, part->mask, ALL_BUT_PIN_0);
    want("INT", 0, int_of(&device));
}

/* Marks that an output has in an image alone. */
static void marked_output(uint32_t latch, uint32_t field)
{
    struct ghixramel_image image = power_on_image(0, 0);
    image.registers[part->configuration] = image.registers[part->mask] = ALL_BUT_PIN_0;
    image.registers[part->latch] = (uint8_t)latch;
    image.registers[part->edge] = (uint8_t)field;
    image.pins[2] = image.pins[3] = PIN_0;
    about("output with marks turned to input, field", field);
    struct ghixramel device = device_from(&image);
    want_turned(&device, 0, 0, 0);
}

static void input_written_again(void)
{
    about("input written as one again", 0);
    struct ghixramel device = device_with(0, 0);
    write_register(&device, part->mask, ALL_BUT_PIN_0);
    write_register(&device, part->latch, PIN_0);
    rise_and_fall(&device);
    want_turned(&device, 1, 0, PIN_0);
}

static void direction_points(void)
{
    ringing_turns();
    quiet_turns(0);
    quiet_turns(PIN_0);
    marked_output(0, RISING);
    marked_output(PIN_0, 0);
    input_written_again();
}

/* Every bit that a register has comes back, no other does, and a reset has the defaults. */
static void written_and_read(void)
{
    static const uint8_t values[] = {0xFF, 0x00, 0xA5, 0x5A};
    for (uint32_t number = 0; number < REGISTERS; number++)
        for (uint32_t i = 0; stored_bits(number) && i < sizeof values; i++) {
            struct ghixramel device = device_with(0, all_pins());
            about("written and read register", number);
            write_register(&device, number, values[i]);
            want("entry", values[i] & stored_bits(number), image_of(&device).registers[number]);
            want("byte read", values[i] & stored_bits(number), read_register(&device, number));
            want("answer to a reset", NOTHING, answer_to(&device, GHIXRAMEL_RESET, 0));
            want("byte read after a reset", power_on_entry(number), read_register(&device, number));
        }
}

/* The registers of one group from its first on, all with one value. */
static void write_group(struct ghixramel *device, uint32_t first, uint32_t value)
{
    begin_write(device, first);
    for (uint32_t number = first; number <= group_of(first)->last; number++)
        want("answer to data", ACK, send_byte(device, value));
    stop(device);
}

/* All pins and no other are driven, read and pending, though every bit of their registers was written. */
static void all_pins_points(void)
{
    about("all pins", part->pins);
    struct ghixramel device = device_with(0, 0);
    write_group(&device, part->mask, 0x00);
    write_group(&device, part->latch, 0xFF);
    set_levels(&device, all_pins());
    want("status", all_pins(), image_of(&device).status);
    want("last input port", bits_of(part->ports - 1), read_register(&device, part->ports - 1));
    write_group(&device, part->polarity, 0xFF);
    set_levels(&device, 0);
    write_group(&device, part->clear, 0xFF);
    want("last input port, inverted", bits_of(part->ports - 1), read_register(&device, part->ports - 1));
    write_group(&device, part->configuration, 0x00);
    want_drives(&device, 0, all_pins());
    write_group(&device, part->output, 0x00);
    want_drives(&device, all_pins(), 0);
    write_group(&device, part->output, 0xFF);
    write_group(&device, part->port_kind, 0xFF);
    want_drives(&device, 0, 0);
    write_group(&device, part->pin_kind, 0xFF);
    want_drives(&device, 0, all_pins());
}

static struct ghixramel armed_device(void)
{
    struct ghixramel device = device_with(0, 0);
    write_register(&device, part->output, 0x00);
    begin_write(&device, OVER_MAP | part->output);
    start(&device);
    want("answer to 00h", ACK, send_byte(&device, 0x00));
    want("answer to 06h", ACK, send_byte(&device, 0x06));
    return device;
}

static void reset_points(void)
{
    about("00h, 06h, START, STOP", 0);
    struct ghixramel device = armed_device();
    start(&device);
    stop(&device);
    want_pointer("pointer", &device, part->output, OVER_MAP);
    want("output register", 0x00, read_register(&device, part->output));

    about("00h, 06h, one byte more, STOP", 0);
    device = armed_device();
    want("answer to the byte", NAK, send_byte(&device, 0x06));
    stop(&device);
    want("output register", 0x00, read_register(&device, part->output));

    about("00h, 06h, STOP", 0);
    device = armed_device();
    stop(&device);
    want_pointer("pointer", &device, 0x00, 0);
    want("bus state", GHIXRAMEL_IDLE, image_of(&device).bus);
    want("output register", 0xFF, read_register(&device, part->output));

    about("hardware reset", 0);
    begin_write(&device, OVER_MAP | part->output);
    want("answer to a reset", NOTHING, answer_to(&device, GHIXRAMEL_RESET, 0));
    want_pointer("pointer", &device, 0x00, 0);
}

static void command_points(void)
{
    about("reserved command", part->reserved);
    struct ghixramel device = device_with(0, 0);
    write_register(&device, part->output, 0x00);
    start(&device);
    want("answer to the address", ACK, send_byte(&device, 0x40));
    want("answer to the command", NAK, send_byte(&device, part->reserved));
    want("pointer", part->output + 1, image_of(&device).pointer);
    want("bus state", GHIXRAMEL_DEAF, image_of(&device).bus);
    want("answer to a byte after it", NAK, send_byte(&device, 0x00));
}

void check_points(void)
{
    worked_example();
    drive_points();
    pointer_points();
    whole_round();
    walk_of_reads();
    mode_points();
    interrupt_points();
    edge_points();
    direction_points();
    written_and_read();
    all_pins_points();
    reset_points();
    command_points();
}
