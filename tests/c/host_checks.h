/* The parts of the host's checks. */
#ifndef HOST_CHECKS_H
#define HOST_CHECKS_H

/* Of the many sizes, bytes, seeded images and runs all are tried and every call watched, or one in so many where a processor is emulated. */
#ifndef ONE_IN
#define ONE_IN 1
#endif

void check_points(void);
void check_identity(void);
void check_device_refusals(void);
void check_bounds(void);
void check_broken(void);
void check_carried(void);
void check_shows(void);
void check_plans(void);
void check_bursts(void);
void check_marks(void);
void check_compares(void);

#endif
