/* Checks are counted; each that fails is a line on standard output. */
#ifndef CHECKS_H
#define CHECKS_H

#include <stdint.h>

/* What the checks that follow are about; the detail is shown in hex. */
void about(const char *topic, uint64_t detail);

/* One check: what was got is what was wanted. */
void want(const char *what, uint64_t wanted, uint64_t got);

/* The last line, `host: N checks, M failed`; gives the exit status. */
int verdict(void);

#endif
