/* States carried over as images: the same bytes out and in, and equal states are equal bytes however they came about. */
#include "checks.h"
#include "guarded.h"
#include "host_checks.h"
#include "images.h"
#include "inventory.h"
#include "master.h"
#include "mix.h"
#include "peer_image.h"
#include "words.h"

#include <libc.h>

enum { IMAGES = 3000 / ONE_IN, RUNS = 40 / ONE_IN, EVENTS = 500, ORDERS = 100 / ONE_IN, SEED = 4 };

#define SAME(what, one, other) want(what, 0, memcmp(one, other, sizeof *(one)) != 0)

/* Out and in again; and the words are where words.h says, so that the tests that break one break what they name. */
static void carry(const struct ghixramel_image *image)
{
    struct ghixramel device = device_from(image), packed = words_of(image);
    struct ghixramel_image out = image_of(&device);
    struct ghixramel again = device_from(&out);
    SAME("image differs", image, &out);
    SAME("state differs", &device, &again);
    SAME("words are others than those of the image", &packed, &device);
}

static void carry_kept(struct ghixramel_image image)
{
    image = kept(image);
    carry(&image);
}

static void random_images(void)
{
    uint64_t random = SEED;
    for (int i = 0; i < IMAGES; i++) {
        struct ghixramel_image image = random_image(&random);
        about("random image", (uint64_t)i);
        carry(&image);
    }
}

/* Each bit of an image by itself, and missing by itself, so that none is lost or lands at another's place. */
static void one_bit(uint32_t number, uint32_t bit)
{
    struct ghixramel_image image = {0};
    about("one bit of register", number << 8 | bit);
    image.registers[number] = (uint8_t)(1u << bit);
    carry_kept(image);
    for (uint32_t other = 0; other < REGISTERS; other++)
        image.registers[other] = stored_bits(other);
    image.registers[number] ^= (uint8_t)(1u << bit);
    carry_kept(image);
}

static void one_pin(uint32_t set, uint32_t pin)
{
    struct ghixramel_image image = {0};
    about("one pin of set", set << 8 | pin);
    image.pins[set] = (uint64_t)1 << pin;
    carry_kept(image);
    for (int i = 0; i < 4; i++)
        image.pins[i] = all_pins();
    image.pins[set] ^= (uint64_t)1 << pin;
    carry_kept(image);
}

/* Of all pins unmasked inputs one has left its reference, or all but one have. */
static void one_status_bit(uint32_t pin)
{
    struct ghixramel_image image = power_on_image(0, 0);
    about("one status bit", pin);
    memset(image.registers + part->mask, 0x00, part->ports);
    image.pins[0] = (uint64_t)1 << pin;
    carry_kept(image);
    image.pins[0] ^= all_pins();
    carry_kept(image);
}

static void one_bit_of_number(uint32_t bit)
{
    struct ghixramel_image image = power_on_image(0, 0);
    about("one bit of the device's number", bit);
    image.number = (uint64_t)1 << bit;
    carry(&image);
    image.number ^= GHIXRAMEL_LARGEST_NUMBER;
    carry(&image);
}

/* Each bus state with each place. */
static void one_bus_state(uint64_t bus)
{
    struct ghixramel_image image = power_on_image(0, 0);
    image.bus = bus;
    for (image.place = 0; image.place < GHIXRAMEL_NUMBER_BYTES; image.place++) {
        about("bus state and place", bus << 8 | image.place);
        carry(&image);
    }
}

static void single_bits(void)
{
    for (uint32_t number = 0; number < REGISTERS; number++)
        for (uint32_t bit = 0; bit < 8; bit++)
            if (stored_bits(number) >> bit & 1)
                one_bit(number, bit);
    for (uint32_t set = 0; set < 4; set++)
        for (uint32_t pin = 0; pin < part->pins; pin++)
            one_pin(set, pin);
    for (uint32_t pin = 0; pin < part->pins; pin++)
        one_status_bit(pin);
    for (uint32_t bit = 0; bit < 8 * GHIXRAMEL_NUMBER_BYTES; bit++)
        one_bit_of_number(bit);
    for (uint64_t bus = GHIXRAMEL_IDLE; bus <= GHIXRAMEL_TELLING; bus++)
        one_bus_state(bus);
}

/* The peer knows the 24-pin part alone. */
static int has_peer(void)
{
    return part->pins == 24;
}

/* The image is the peer's after every event, and makes the same state. */
static void step_peer(struct peer *peer, struct event event, uint32_t answered, const struct ghixramel *device)
{
    uint8_t answer[2] = {0};
    want("refusal by the peer", GHIXRAMEL_DONE, peer_step(peer, event.kind, event.argument, answer));
    want("answer", (uint32_t)answer[0] << 8 | answer[1], answered);
    struct ghixramel_image image = image_of(device), peers = image_of_peer(peer);
    struct ghixramel from_peers = device_from(&peers);
    SAME("image differs from the peer's", &peers, &image);
    SAME("state differs from that of the peer's image", &from_peers, device);
}

/* After every event status and line are what the rest gives, no pin past the last is in a set or driven, and the image makes the state. */
static void run(struct ghixramel *device, const struct event events[EVENTS])
{
    struct ghixramel_image image = image_of(device);
    struct peer peer = peer_of_image(&image);
    for (int i = 0; i < EVENTS; i++) {
        struct event event = events[i];
        uint64_t drives[2] = {0};
        uint32_t answer = answer_to(device, event.kind, event.argument);
        image = image_of(device);
        struct ghixramel_image worked_out = kept(image);
        struct ghixramel again = device_from(&image);
        SAME("status or line is not what pins and registers give", &worked_out, &image);
        SAME("state differs from that of its image", &again, device);
        want("refusal of drives", GHIXRAMEL_DONE, guarded_drives(device, drives));
        want("pins that there are not", 0,
             (image.pins[0] | image.pins[1] | image.pins[2] | image.pins[3] | image.status | drives[0] | drives[1]) & ~all_pins());
        if (has_peer())
            step_peer(&peer, event, answer, device);
    }
}

/* A reset gives the state of power-on with the same number, from wherever. */
static void want_reset(const struct ghixramel *device)
{
    struct ghixramel_image image = image_of(device);
    struct ghixramel made = numbered_device((uint32_t)image.choice, image.pins[0], image.number), reset = *device, called = *device;
    struct ghixramel_image made_image = power_on_image((uint32_t)image.choice, image.pins[0]);
    made_image.number = image.number;
    struct ghixramel carried = device_from(&made_image);
    want("answer to a reset", NOTHING, answer_to(&reset, GHIXRAMEL_RESET, 0));
    start(&called);
    want("answer to 00h", ACK, send_byte(&called, 0x00));
    want("answer to 06h", ACK, send_byte(&called, 0x06));
    stop(&called);
    SAME("state of the rules' image", &made, &carried);
    SAME("state after a hardware reset", &made, &reset);
    SAME("state after a general call", &made, &called);
}

static void mixed_events(struct event events[EVENTS], uint64_t seed, const struct ghixramel_image *image)
{
    struct mix mix;
    mix_begin(&mix, mix_of_part(), seed, (uint32_t)image->choice, image->pins[0]);
    for (int i = 0; i < EVENTS; i++)
        events[i] = mix_next(&mix);
}

static void inventory_events(struct event events[EVENTS], uint64_t seed, const struct ghixramel_image *image)
{
    struct inventory inventory;
    inventory_begin(&inventory, seed, (uint32_t)image->choice);
    for (int i = 0; i < EVENTS; i++)
        events[i] = inventory_next(&inventory);
}

static void runs(const char *topic, void (*make)(struct event events[EVENTS], uint64_t, const struct ghixramel_image *))
{
    uint64_t random = SEED;
    for (uint32_t i = 0; i < RUNS; i++) {
        struct event events[EVENTS];
        struct ghixramel_image image = i % 2 ? random_image(&random) : power_on_image(i / 2 % 4, random_pins(&random));
        struct ghixramel device = device_from(&image);
        about(topic, i);
        make(events, SEED + i, &image);
        run(&device, events);
        want_reset(&device);
    }
}

/* The last register that is a group of its own. */
static uint32_t last_of_one(void)
{
    uint32_t last = 0;
    for (uint32_t i = 0; i < part->group_count; i++)
        if (part->groups[i].first == part->groups[i].last && part->groups[i].stored)
            last = part->groups[i].last;
    return last;
}

/* Registers written upwards, and downwards over other values: nothing pends, so only the last values can be told. */
static void write_in_two_orders(uint64_t *random)
{
    uint32_t choice = random_below(random, 4), last = last_of_one();
    uint64_t levels = random_pins(random);
    struct ghixramel up = device_with(choice, levels), down = device_with(choice, levels);
    struct ghixramel_image image = random_image(random), wanted = power_on_image(choice, levels);
    memcpy(wanted.registers, image.registers, sizeof wanted.registers);
    for (uint32_t number = REGISTERS; number-- > 0;)
        if (stored_bits(number)) {
            write_register(&down, number, random_below(random, 256));
            write_register(&down, number, image.registers[number]);
        }
    for (uint32_t number = 0; number < REGISTERS; number++)
        if (stored_bits(number))
            write_register(&up, number, image.registers[number]);
    /* The pointer is where the last transaction left it, and a group of one stays. */
    write_register(&up, last, image.registers[last]);
    write_register(&down, last, image.registers[last]);
    wanted.pointer = last;
    struct ghixramel carried = device_from(&wanted);
    SAME("state written upwards", &carried, &up);
    SAME("state written downwards", &carried, &down);
}

static void orders(void)
{
    uint64_t random = SEED;
    for (uint32_t i = 0; i < ORDERS; i++) {
        about("orders of writes", i);
        write_in_two_orders(&random);
    }
}

void check_carried(void)
{
    random_images();
    single_bits();
    runs("run", mixed_events);
    runs("run of an inventory", inventory_events);
    orders();
}
