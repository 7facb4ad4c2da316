/* The master's side of the bus: events that the device must not refuse, and transactions that it must acknowledge. */
#ifndef MASTER_H
#define MASTER_H

#include <ghixramel.h>

/* An answer in one number: its kind above the byte read. */
enum { NOTHING = GHIXRAMEL_NOTHING << 8, ACK = GHIXRAMEL_ACK << 8, NAK = GHIXRAMEL_NAK << 8, READ = GHIXRAMEL_READ << 8 };

/* Bytes that every device hears. */
enum { GENERAL_CALL = 0x00, SOFTWARE_RESET = 0x06, ASK_FOR_ID = 0xF8, TELL_ID = 0xF9 };

/* The address byte of a device to write; to read it is one more. */
uint32_t address_byte(uint32_t choice);

/* The number is the usual one, or given. */
struct ghixramel device_with(uint32_t choice, uint64_t levels);
struct ghixramel numbered_device(uint32_t choice, uint64_t levels, uint64_t number);
struct ghixramel device_from(const struct ghixramel_image *image);
struct ghixramel_image image_of(const struct ghixramel *device);

uint32_t answer_to(struct ghixramel *device, uint32_t kind, uint64_t argument);
void start(struct ghixramel *device);
void stop(struct ghixramel *device);
uint32_t send_byte(struct ghixramel *device, uint32_t byte);
void set_levels(struct ghixramel *device, uint64_t levels);

/* START, the address to write, the command: the pointer is at the register. */
void begin_write(struct ghixramel *device, uint32_t number);
/* The same, then START and the address to read. */
void begin_read(struct ghixramel *device, uint32_t number);

void write_register(struct ghixramel *device, uint32_t number, uint32_t value);
uint32_t read_register(struct ghixramel *device, uint32_t number);

uint32_t int_of(const struct ghixramel *device);
void want_drives(const struct ghixramel *device, uint64_t low, uint64_t high);

#endif
