/* How much stack a call uses. */
#ifndef STACK_H
#define STACK_H

#include <stddef.h>

/* Makes the call on a painted stack of its own, and gives the bytes from its top to the lowest one that the call touched. */
size_t stack_used(void (*call)(void));

#endif
