/* The same device in plain C, its state in place: what the proved one is measured against. Rules: docs/RULES.md. */
#ifndef PEER_H
#define PEER_H

#include <stdint.h>

struct peer {
    uint64_t level, reference, held, edge; /* pin sets, pin 0 in the lowest bit */
    uint64_t status;                       /* the pins whose status bit is 1 */
    uint64_t number;                       /* the device's own, which is read as its Device ID */
    uint8_t registers[128];                /* one byte for each command number */
    uint8_t pointer, bus, choice;
    uint8_t line;  /* INT's level: 1 quiet, 0 asserted */
    uint8_t mode;  /* how the pointer steps: 0 in its group, 1 over the whole map */
    uint8_t place; /* the byte of the number that is read next, 0 the highest */
};

enum { PEER_START, PEER_STOP, PEER_BYTE, PEER_FETCH, PEER_LEVELS, PEER_RESET };
enum { PEER_NOTHING, PEER_ACK, PEER_NAK, PEER_READ };

/* A device at power-on; 0, or refusal 2 with nothing changed. */
uint32_t peer_power_on(struct peer *device, uint32_t choice, uint64_t levels, uint64_t number);

/* One event; 0, or refusal 3, 1 or 2 with nothing changed. answer[0] is the answer's kind, answer[1] the byte read, else 0.
 * Built with PEER_TRUSTS_IMAGE it does not look for refusal 3. */
uint32_t peer_step(struct peer *device, uint32_t kind, uint64_t argument, uint8_t answer[2]);

/* The pins driven low, drives[0], and driven high, drives[1]. */
void peer_drives(const struct peer *device, uint64_t drives[2]);

/* 1 if INT is asserted, else 0. */
int peer_int(const struct peer *device);

#endif
