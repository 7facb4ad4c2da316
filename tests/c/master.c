#include "master.h"

#include "checks.h"
#include "guarded.h"
#include "images.h"

#include <libc.h>

uint32_t address_byte(uint32_t choice)
{
    return 2 * (0x20 + choice);
}

struct ghixramel device_with(uint32_t choice, uint64_t levels)
{
    return numbered_device(choice, levels, USUAL_NUMBER);
}

struct ghixramel numbered_device(uint32_t choice, uint64_t levels, uint64_t number)
{
    struct ghixramel device;
    memset(&device, 0xFF, sizeof device);
    want("refusal of power-on", GHIXRAMEL_DONE, guarded_power_on(&device, choice, levels, number));
    return device;
}

struct ghixramel device_from(const struct ghixramel_image *image)
{
    struct ghixramel device;
    memset(&device, 0xFF, sizeof device);
    want("refusal of an image", GHIXRAMEL_DONE, guarded_from_image(&device, image));
    return device;
}

struct ghixramel_image image_of(const struct ghixramel *device)
{
    struct ghixramel_image image;
    memset(&image, 0xFF, sizeof image);
    want("refusal of to_image", GHIXRAMEL_DONE, guarded_to_image(device, &image));
    return image;
}

uint32_t answer_to(struct ghixramel *device, uint32_t kind, uint64_t argument)
{
    uint8_t answer[2] = {0};
    want("refusal of an event", GHIXRAMEL_DONE, guarded_step(device, kind, argument, answer));
    return (uint32_t)answer[0] << 8 | answer[1];
}

void start(struct ghixramel *device)
{
    want("answer to START", NOTHING, answer_to(device, GHIXRAMEL_START, 0));
}

void stop(struct ghixramel *device)
{
    want("answer to STOP", NOTHING, answer_to(device, GHIXRAMEL_STOP, 0));
}

uint32_t send_byte(struct ghixramel *device, uint32_t byte)
{
    return answer_to(device, GHIXRAMEL_BYTE, byte);
}

void set_levels(struct ghixramel *device, uint64_t levels)
{
    want("answer to levels", NOTHING, answer_to(device, GHIXRAMEL_LEVELS, levels));
}

static uint32_t address(const struct ghixramel *device)
{
    return address_byte((uint32_t)image_of(device).choice);
}

void begin_write(struct ghixramel *device, uint32_t number)
{
    start(device);
    want("answer to the address", ACK, send_byte(device, address(device)));
    want("answer to the command", ACK, send_byte(device, number));
}

void begin_read(struct ghixramel *device, uint32_t number)
{
    begin_write(device, number);
    start(device);
    want("answer to the address to read", ACK, send_byte(device, address(device) + 1));
}

void write_register(struct ghixramel *device, uint32_t number, uint32_t value)
{
    begin_write(device, number);
    want("answer to data", ACK, send_byte(device, value));
    stop(device);
}

uint32_t read_register(struct ghixramel *device, uint32_t number)
{
    begin_read(device, number);
    uint32_t answer = answer_to(device, GHIXRAMEL_FETCH, 0);
    want("kind of the answer to a fetch", GHIXRAMEL_READ, answer >> 8);
    stop(device);
    return answer & 0xFF;
}

uint32_t int_of(const struct ghixramel *device)
{
    uint8_t asserted[1] = {0};
    want("refusal of INT", GHIXRAMEL_DONE, guarded_int(device, asserted));
    return asserted[0];
}

void want_drives(const struct ghixramel *device, uint64_t low, uint64_t high)
{
    uint64_t drives[2] = {0};
    want("refusal of drives", GHIXRAMEL_DONE, guarded_drives(device, drives));
    want("pins driven low", low, drives[0]);
    want("pins driven high", high, drives[1]);
}
