#include "checks.h"

#include "parts.h"

#include <libc.h>

static const char *present_topic = "";
static uint64_t present_detail;
static unsigned long checks, failed;

void about(const char *topic, uint64_t detail)
{
    present_topic = topic;
    present_detail = detail;
}

void want(const char *what, uint64_t wanted, uint64_t got)
{
    checks++;
    if (wanted == got)
        return;
    failed++;
    /* At once, in case a call that spoils memory ends the program. */
    dprintf(STANDARD_OUTPUT, "host: %u pins, %s (%llx): %s: wanted %llx, got %llx\n", part->pins, present_topic,
            (unsigned long long)present_detail, what, (unsigned long long)wanted, (unsigned long long)got);
}

int verdict(void)
{
    printf("host: %lu checks, %lu failed\n", checks, failed);
    return failed != 0;
}
