#include "refused.h"

#include "event_bytes.h"
#include "guarded.h"

#include <libc.h>

uint32_t step_refusal(const struct ghixramel *device, uint32_t kind, uint64_t argument)
{
    struct ghixramel stepped = *device;
    uint8_t answer[2] = {0};
    return guarded_step(&stepped, kind, argument, answer);
}

uint32_t drives_refusal(const struct ghixramel *device)
{
    uint64_t drives[2] = {0};
    return guarded_drives(device, drives);
}

uint32_t int_refusal(const struct ghixramel *device)
{
    uint8_t asserted[1] = {0};
    return guarded_int(device, asserted);
}

uint32_t show_refusal(const struct ghixramel *device, uint32_t number)
{
    uint8_t shown[1] = {0};
    return guarded_show(device, number, shown);
}

uint32_t to_image_refusal(const struct ghixramel *device)
{
    struct ghixramel_image image;
    memset(&image, 0x99, sizeof image);
    return guarded_to_image(device, &image);
}

uint32_t marked_step_refusal(const struct ghixramel *device, const struct ghixramel_marks *marks, uint32_t kind, uint64_t argument)
{
    struct ghixramel stepped = *device;
    struct ghixramel_marks noted = *marks;
    uint8_t answer[2] = {0};
    return guarded_marked_step(&stepped, &noted, kind, argument, answer);
}

uint32_t sign_off_refusal(const struct ghixramel *device, const struct ghixramel_marks *marks, uint32_t pin)
{
    struct ghixramel_marks signed_off = *marks;
    return guarded_sign_off(device, &signed_off, pin);
}

uint32_t burst_refusal(const struct ghixramel *device, uint32_t kind, uint32_t argument, uint32_t rest)
{
    struct ghixramel stepped = *device;
    uint8_t event[GHIXRAMEL_EVENT_BYTES], answer[2] = {0};
    uint64_t done[1] = {0};
    put_event(event, kind, argument, rest);
    return guarded_burst(&stepped, event, sizeof event, 1, answer, sizeof answer, done);
}

uint32_t marked_burst_refusal(const struct ghixramel *device, const struct ghixramel_marks *marks, uint32_t kind, uint32_t argument,
                              uint32_t rest)
{
    struct ghixramel stepped = *device;
    struct ghixramel_marks noted = *marks;
    uint8_t event[GHIXRAMEL_EVENT_BYTES], answer[2] = {0};
    uint64_t done[1] = {0};
    put_event(event, kind, argument, rest);
    return guarded_marked_burst(&stepped, &noted, event, sizeof event, 1, answer, sizeof answer, done);
}
