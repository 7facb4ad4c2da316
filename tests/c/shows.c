/* ghixramel_show beside a fetch over the bus. */
#include "checks.h"
#include "guarded.h"
#include "host_checks.h"
#include "images.h"
#include "master.h"

enum { IMAGES = 40 / ONE_IN, SEED = 2 };

static void show_beside_fetch(const struct ghixramel *device, uint32_t number)
{
    uint8_t shown[1] = {0};
    struct ghixramel fetched_from = *device;
    about("show of register", number);
    want("refusal", GHIXRAMEL_DONE, guarded_show(device, number, shown));
    want("byte that a fetch gives", read_register(&fetched_from, number), shown[0]);
    want("unused bits that are shown", 0, shown[0] & (uint8_t)~bits_of(number));
}

static void show_of_no_register(const struct ghixramel *device, uint32_t number)
{
    uint8_t shown[1] = {0};
    about("show of no register", number);
    want("refusal", GHIXRAMEL_BAD_ARGUMENT, guarded_show(device, number, shown));
}

static void show_all(const struct ghixramel *device)
{
    static const uint32_t beyond[] = {0x100, 0x104, 0x10000, 0x80000000, UINT32_MAX};
    for (uint32_t number = 0; number <= UINT8_MAX; number++)
        (group_of(number) ? show_beside_fetch : show_of_no_register)(device, number);
    for (uint32_t i = 0; i < sizeof beyond / sizeof *beyond; i++)
        show_of_no_register(device, beyond[i]);
}

void check_shows(void)
{
    uint64_t random = SEED;
    for (int i = 0; i < IMAGES; i++) {
        struct ghixramel_image image = random_image(&random);
        struct ghixramel device = device_from(&image);
        show_all(&device);
    }
}
