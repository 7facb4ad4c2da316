/* The library in the peer's place: linked with the peer's programs, it lets the model judge the library's answers. */
#include "checks.h"
#include "guarded.h"
#include "peer_image.h"

static struct ghixramel device_of(const struct peer *peer)
{
    struct ghixramel_image image = image_of_peer(peer);
    return guarded_device(&image);
}

/* A refused call leaves the peer's state as it was. */
static uint32_t keep(struct peer *peer, const struct ghixramel *device, uint32_t refusal)
{
    struct ghixramel_image image = {0};
    if (refusal != GHIXRAMEL_DONE)
        return refusal;
    want("refusal of to_image", GHIXRAMEL_DONE, guarded_to_image(device, &image));
    *peer = peer_of_image(&image);
    return refusal;
}

uint32_t peer_power_on(struct peer *peer, uint32_t choice, uint64_t levels, uint64_t number)
{
    struct ghixramel device = device_of(peer);
    uint32_t refusal = guarded_power_on(&device, choice, levels, number);
    return keep(peer, &device, refusal);
}

uint32_t peer_step(struct peer *peer, uint32_t kind, uint64_t argument, uint8_t answer[2])
{
    struct ghixramel device = device_of(peer);
    uint32_t refusal = guarded_step(&device, kind, argument, answer);
    return keep(peer, &device, refusal);
}

void peer_drives(const struct peer *peer, uint64_t drives[2])
{
    struct ghixramel device = device_of(peer);
    want("refusal of drives", GHIXRAMEL_DONE, guarded_drives(&device, drives));
}

int peer_int(const struct peer *peer)
{
    struct ghixramel device = device_of(peer);
    uint8_t asserted[1] = {0};
    want("refusal of INT", GHIXRAMEL_DONE, guarded_int(&device, asserted));
    return asserted[0];
}
