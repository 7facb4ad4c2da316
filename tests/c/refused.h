/* The refusal of a watched call, where its results are of no interest. */
#ifndef REFUSED_H
#define REFUSED_H

#include <ghixramel.h>

enum { KINDS = 6 };

uint32_t step_refusal(const struct ghixramel *device, uint32_t kind, uint64_t argument);
uint32_t drives_refusal(const struct ghixramel *device);
uint32_t int_refusal(const struct ghixramel *device);
uint32_t show_refusal(const struct ghixramel *device, uint32_t number);
uint32_t to_image_refusal(const struct ghixramel *device);

uint32_t marked_step_refusal(const struct ghixramel *device, const struct ghixramel_marks *marks, uint32_t kind, uint64_t argument);
uint32_t sign_off_refusal(const struct ghixramel *device, const struct ghixramel_marks *marks, uint32_t pin);

/* Of a burst of one event, `rest` its third word. */
uint32_t burst_refusal(const struct ghixramel *device, uint32_t kind, uint32_t argument, uint32_t rest);
uint32_t marked_burst_refusal(const struct ghixramel *device, const struct ghixramel_marks *marks, uint32_t kind, uint32_t argument,
                              uint32_t rest);

#endif
