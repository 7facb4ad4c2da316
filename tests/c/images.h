/* The register map of the part that the checks are about, and images of its device. */
#ifndef IMAGES_H
#define IMAGES_H

#include "mix.h"
#include "parts.h"

enum { REGISTERS = 128 };

/* The number of every device that is given no other. */
enum { USUAL_NUMBER = 0x123456 };

/* NULL for a reserved number. */
const struct group *group_of(uint32_t number);

/* The bits that a register has; of a reserved number none. */
uint8_t bits_of(uint32_t number);

/* The bits of an entry that can be other than 0. */
uint8_t stored_bits(uint32_t number);

/* What an entry holds at power-on. */
uint8_t power_on_entry(uint32_t number);

/* The traffic of the part. */
const struct mix_part *mix_of_part(void);

/* Any pins that there are. */
uint64_t random_pins(uint64_t *random);

/* The image with the status and the line that its pins and registers give, pins past the last one left out. */
struct ghixramel_image kept(struct ghixramel_image image);

/* Any state that a device can be in. */
struct ghixramel_image random_image(uint64_t *random);

/* The image at power-on with the usual number, as the rules have it. */
struct ghixramel_image power_on_image(uint32_t choice, uint64_t levels);

#endif
