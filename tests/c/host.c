/* The library as a host calls it: the rules' worked example and bench points, the Device ID, every refusal, images in and out, the planner
 * over the bus, bursts, loss marks; the same for each part. Then comparisons, whose texts say the part. A line for each check that failed;
 * the last line is `host: N checks, M failed`. */
#include "checks.h"
#include "guarded.h"
#include "host_checks.h"
#include "parts.h"

static void check_part(void)
{
    check_points();
    check_identity();
    check_device_refusals();
    check_bounds();
    check_broken();
    check_carried();
    check_shows();
    check_plans();
    check_bursts();
    check_marks();
}

int main(void)
{
    for (uint32_t i = 0; i < part_count; i++) {
        part = &parts[i];
        check_part();
    }
    check_compares();
    check_stacks();
    return verdict();
}
